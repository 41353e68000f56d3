#!/usr/bin/env python3
"""pictures.py: draws docs/states.svg from the step's definition (crates/payload_fsm/specs/Step.antt) and docs/layers.svg from crates.txt.

    tools/pictures.py            writes both
    tools/pictures.py --check    exit status 1 where a picture is not what its source gives, or is not clean (drawing.py)
"""
import os
import re
import sys

sys.dont_write_bytecode = True  # no __pycache__ beside the tools
from drawing import BLACK, BLUE, GREY, LINE, RED, SAND, SIZE, SKY, Arrow, Box, Label, Picture, above, below, beside, faults, plain, svg
from rows import TALL, layout

TOP = os.path.dirname(os.path.dirname(os.path.abspath(__file__)))


# --- the step, read from its definition ---

def parsed(text):
    """An expression as nested lists."""
    tokens = re.findall(r'[()]|[^\s()]+', text)
    at = 0

    def group():
        nonlocal at
        out = []
        while at < len(tokens) and tokens[at] != ')':
            if tokens[at] == '(':
                at += 1
                out.append(group())
                at += 1
            else:
                out.append(tokens[at])
                at += 1
        return out[0] if len(out) == 1 else out

    return group()


def clauses(source, name):
    """The clauses 'name patterns = body' of a definition: (patterns, body)."""
    found = re.findall(rf'^{name} ([^=:]*)=((?:.|\n)*?)(?=\n\n|\n{name} |\Z)', source, re.M)
    return [(left.split(), parsed(right)) for left, right in found]


WORDS = {
    'tdt_id': '0xF0', 'cdw_id': '0xF8', 'tdh_id': '0xE8', 'ddw0_id': '0xE4', 'ihw_id': '0xE0',
}


def condition(c):
    """A condition in 01's words, and its opposite ('' for an id: the rows below it)."""
    if len(c) == 3 and c[1] == '==':
        c = ['eqb', c[0], c[2]]
    if c[0] == 'eqb' and c[1] == ['id_of', 'w']:
        return WORDS[c[2]], ''
    if c[0] == 'is_data_id':
        return 'data id', 'other'
    if c[0] == 'packet_done':
        return 'packet done', 'not done'
    if c[0] == 'eqb' and c[1] == ['no_data', 'w'] and c[2] == '0':
        return 'bit 13 clear', 'bit 13 set'
    raise SystemExit(f'pictures: a condition that is not known: {c}')


def arrows(source):
    """(state, conditions, kind, guessed, next) for each row of the table."""
    helpers = {n: clauses(source, n)[0] for n in ('after_tdh', 'in_data', 'in_three')}
    out = []

    def put(e, env):
        if isinstance(e, list):
            return [put(x, env) for x in e]
        return env.get(e, e)

    def states(e, conds):
        if isinstance(e, list) and e[0] == 'cond':
            yes, no = condition(e[1])
            yield from states(e[2], conds + [yes])
            yield from states(e[3], conds + ([no] if no else []))
        elif isinstance(e, list) and e[0] in helpers:
            names, body = helpers[e[0]]
            yield from states(put(body, dict(zip(names, e[1:]))), conds)
        else:
            yield e, conds

    def rows(state, e, conds):
        if e[0] == 'cond':
            yes, no = condition(e[1])
            rows(state, e[2], conds + [yes])
            rows(state, e[3], conds + ([no] if no else []))
        elif e[0] in helpers:
            names, body = helpers[e[0]]
            rows(state, put(body, dict(zip(names, e[1:]))), conds)
        else:
            for target, more in states(e[2], conds):
                if 'other' not in more and not any(c.startswith('0x') or c == 'data id' for c in more) and state == 'S.Three':
                    more = ['other'] + more
                out.append((state, more, e[1], e[0] == 'guess', target))

    for names, body in clauses(source, 'advance_of'):
        rows(names[0], body, [])
    return out


# --- the states ---

NAMES = {
    'S.Ihw': 'IHW_', 'S.Tdh': 'TDH_', 'S.Data': 'DATA_', 'S.CIhw': 'c_IHW_', 'S.Three': 'THREE', 'S.CData': 'c_DATA_', 'S.CTdh': 'c_TDH_',
}
LONG = {'S.Three': 'DDW0_or_TDH_or_IHW_'}
KINDS = {
    'K.Ihw': 'IHW', 'K.IhwContinuation': 'IHW continuation', 'K.Tdh': 'TDH', 'K.TdhAfterPacketDone': 'TDH after packet done',
    'K.TdhContinuation': 'TDH continuation', 'K.DataWord': 'data word', 'K.Cdw': 'CDW', 'K.Tdt': 'TDT', 'K.Ddw0': 'DDW0',
}
CODES = {'K.DataWord': 'E991', 'K.Ddw0': 'E992'}
# A state's row, first column and last column. THREE lies below two states, so that the arrows between it and them are straight.
PLACES = {
    'S.Ihw': (0, 0, 0), 'S.Tdh': (0, 1, 1), 'S.Data': (0, 2, 2), 'S.CIhw': (0, 3, 3), 'S.CTdh': (0, 4, 4),
    'S.Three': (1, 1, 2), 'S.CData': (1, 3, 3),
}
COLUMNS, ROWS = (80, 272, 582, 834, 1078), (136, 286)  # the middles; between two columns the labels have room
WIDE, HIGH = 96, 44
BEND = 12  # how round a bend is
LOOP = 36  # how far a loop stands out
LEGEND = (
    'On an arrow: which word comes, and in blue what it is taken as. 0xE0 to 0xF8: its id, the last byte. Data id: the id of a lane.',
    'Bit 13 of a TDH: no data. Packet done: bit 64 of a TDT; where it is clear, the event goes on in the next page (sand: continuation).',
    'E991, E992: the state does not know the id, so what the word is taken as is a guess, and a record says so.',
)


def state_box(state):
    row, first, last = PLACES[state]
    x = (COLUMNS[first] + COLUMNS[last]) // 2
    fill = SAND if NAMES[state].startswith('c_') else SKY
    return Box(x, ROWS[row], COLUMNS[last] - COLUMNS[first] + WIDE, HIGH, 14, fill, 2.6 if state == 'S.Ihw' else 1.2)


def words_of(rows):
    """What an arrow says: a line for each row of the table; two lines where it has one row, to be short."""
    lines = []
    for conds, kind, guessed in rows:
        when = ', '.join(conds) or 'any word'
        taken = ([(CODES[kind], RED), (', ', BLACK)] if guessed else []) + [(KINDS[kind], BLUE)]
        lines += [[(when + ':', BLACK)], taken] if len(rows) == 1 else [[(when + ': ', BLACK)] + taken]
    return lines


def loop(box, up, words):
    """Out of the box and back, above it (up -1) or below it (1)."""
    y = box.y + up * box.h // 2
    far = y + up * LOOP * 4 // 3
    way = [((box.x - 22, y),), ((box.x - 22, far), (box.x + 22, far), (box.x + 22, y))]
    return way, (above if up < 0 else below)(box.x, y + up * LOOP, words)


def upright(a, b, back, words):
    """Straight down or up; down goes to the right of up where both are there."""
    side = 1 if a.y < b.y or not back else -1
    x = (max(a.rect()[0], b.rect()[0]) + min(a.rect()[2], b.rect()[2])) // 2 + (side * 22 if back else 0)
    towards = 1 if a.y < b.y else -1
    first, last = a.y + towards * a.h // 2, b.y - towards * b.h // 2
    return [((x, first),), ((x, last),)], beside(x, (first + last) // 2, words, side)


def level(a, b, back, words):
    """Straight to the right or left; to the right goes above to the left where both are there."""
    towards = 1 if a.x < b.x else -1
    y = a.y - (towards * 10 if back else 0)
    first, last = a.x + towards * a.w // 2, b.x - towards * b.w // 2
    return [((first, y),), ((last, y),)], (below if back and towards < 0 else above)((first + last) // 2, y, words)


def bent(a, b, words):
    """Level at the height of the lower box, upright at the middle of the upper one."""
    low, high = (a, b) if a.y > b.y else (b, a)
    side = 1 if low.x < high.x else -1
    turn = (high.x, low.y)
    ends = [(low.x + side * low.w // 2, low.y), (high.x, high.y + high.h // 2)]
    round_it = [(high.x - side * BEND, low.y), (high.x, low.y - BEND)]
    words_at = above((ends[0][0] + high.x) // 2, low.y, words)
    if low is b:
        ends, round_it = ends[::-1], round_it[::-1]
    return [(ends[0],), (round_it[0],), (turn, turn, round_it[1]), (ends[1],)], words_at


def route(p, start, end, back, words):
    a, b = p.boxes[start], p.boxes[end]
    if start == end:
        return loop(a, -1 if PLACES[start][0] == 0 else 1, words)
    if a.y == b.y:
        return level(a, b, back, words)
    if a.rect()[0] < b.rect()[2] and b.rect()[0] < a.rect()[2]:
        return upright(a, b, back, words)
    return bent(a, b, words)


def names_in(state, box):
    """The state's name, and below it the long one where there is one."""
    if state not in LONG:
        return [Label(box.x, box.y - LINE // 2, plain(NAMES[state]), size=16, box=state)]
    return [Label(box.x, box.y - LINE, plain(NAMES[state]), size=16, box=state),
            Label(box.x, box.y, plain(LONG[state], colour=GREY), size=12, box=state)]


def begin_at(p, state):
    x, top = p.boxes[state].x, p.boxes[state].rect()[1]
    p.arrows.append(Arrow('the start', state, [((x, top - LOOP),), ((x, top),)]))
    p.labels.append(above(x, top - LOOP, plain('start, reset')))


def states_picture(table):
    p = Picture('The state machine: what a word is taken as')
    by = {}
    for state, conds, kind, guessed, target in table:
        by.setdefault((state, target), []).append((conds, kind, guessed))
    for s in NAMES:
        p.boxes[s] = state_box(s)
        p.labels += names_in(s, p.boxes[s])
    for (s, t), rows in by.items():
        way, label = route(p, s, t, (t, s) in by, words_of(rows))
        p.arrows.append(Arrow(s, t, way))
        p.labels.append(label)
    begin_at(p, 'S.Ihw')
    p.labels.append(Label(32, ROWS[-1] + 134, plain(*LEGEND, colour=GREY), 'start'))
    return p


# --- the crates ---

def crates_of(text):
    """Each crate with the crates that it stands on, and the names that are no crate here."""
    deps = {}
    for line in text.splitlines():
        line = line.split('#')[0].strip()
        if line:
            name, rest = line.split(':')
            deps[name.split()[0]] = rest.split()
    others = sorted({d for ds in deps.values() for d in ds if d not in deps})
    return {n: [d for d in ds if d in deps] for n, ds in deps.items()}, others


def layers_picture(text):
    deps, others = crates_of(text)
    width = 2 * round(max(len(n) for n in deps) * SIZE * 0.55 / 2 + 12)
    places, lines = layout(deps, width)
    p = Picture('The crates: each stands on those that its arrows lead to')
    for n, (x, y) in places.items():
        program = os.path.exists(os.path.join(TOP, 'crates', n, 'src', 'main.rt'))
        p.boxes[n] = Box(x, y, width, TALL, 6, SAND if program else SKY)
        p.labels.append(Label(x, y - LINE // 2, plain(n), box=n))
    p.arrows = [Arrow(*line) for line in lines]
    legend = ['Blue: library. Sand: program. An arrow leads to what a crate stands on, and lines',
              'to the same crate join. What is reached through another crate has no arrow of its own.']
    if others:
        legend.append('Left out, from the kit: ' + ', '.join(others) + '.')
    p.labels.append(Label(0, max(y for _, y in places.values()) + TALL + 10, plain(*legend, colour=GREY), 'start'))
    return p


# --- both ---

def read(name):
    with open(os.path.join(TOP, name), encoding='utf8') as f:
        return f.read()


def main():
    pictures = {
        'docs/states.svg': states_picture(arrows(read('crates/payload_fsm/specs/Step.antt'))),
        'docs/layers.svg': layers_picture(read('crates.txt')),
    }
    wrong = [f'{n}: {fault}' for n, p in pictures.items() for fault in faults(p)]
    for n, p in pictures.items():
        path = os.path.join(TOP, n)
        if sys.argv[1:] != ['--check']:
            with open(path, 'w', encoding='utf8') as f:
                f.write(svg(p))
        elif not os.path.exists(path) or read(n) != svg(p):
            wrong.append(f'{n} is not what its source gives; run tools/pictures.py')
    for said in wrong:
        print(f'pictures: {said}')
    sys.exit(1 if wrong else 0)


if __name__ == '__main__':
    main()
