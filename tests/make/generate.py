#!/usr/bin/env python3
"""generate.py: call sequences for the comparison with the Rust (tests/oracle), the same for the same seed and size. Nothing of them is kept.

    generate.py [--size short|long] [--seed N] > CALLS

Each sequence begins with S, a new tracker, and is short: where the two sides part (E990), little is lost until the next S.
"""
import argparse
import random
import sys

sys.dont_write_bytecode = True  # nothing is left in the repository
from made import CDW, DDW0, IHW, TDH, TDT, cdw, ddw0, ihw, tdh, tdt, ten, word

SIZES = {'short': 14_000, 'long': 1_000_000}  # words at least, beside every id in every state and every bit
SETTINGS = [(running, frames, period) for running in (0, 1) for frames in (0, 1) for period in ('-', 198, 0, 3564, 65535)]
# those of document 02, ticket 9, that the Rust does not have: by rule 2, and a period of more than 16 bits
LONG_SETTINGS = [(running, frames, period, rule) for running, frames in ((1, 1), (1, 0), (0, 1))
                 for period, rule in (('-', 2), (198, 2), (0, 2), (3564, 2), (10692, 2), (2**32 - 1, 2), (65536, 1), (2**32 - 1, 1))]
INNER = list(range(0x20, 0x29))
OUTER = [i for base in (0x40, 0x48, 0x50, 0x58) for i in range(base, base + 7)]
LAST_BC, ORBIT_LENGTH, PACKET_WORDS, LAST_POSITION = 3563, 3564, 4096, 2**62
# crossings about the ends, about 198 and its multiples, and those that are none
EDGE_BC = [0, 1, 2, 98, 99, 197, 198, 199, 396, 3364, 3365, 3366, 3465, 3562, 3563, 3564, 3565, 3566, 3762, 4093, 4094, 4095]


class Chance:
    """A seeded source that uses only random() and getrandbits(), which give the same numbers in every Python."""

    def __init__(self, seed):
        source = random.Random(seed)
        self.random, self.bits = source.random, source.getrandbits

    def below(self, n):
        return int(self.random() * n)

    def pick(self, xs):
        return xs[int(self.random() * len(xs))]

    def often(self, p):
        return self.random() < p

    def position(self):
        return self.pick([0, 10, self.bits(16), self.bits(40), LAST_POSITION - self.bits(20), LAST_POSITION])

    def orbit(self):
        return self.pick([0, 7, self.bits(32), 2**32 - 1 - self.below(3)])

    def lanes(self):
        return self.pick([0, 1, 1 << self.below(28), 0x1FF, 0xFFFFFFF, self.bits(28), self.bits(28)])


def packet(position=0, orbit=0, trigger=0, bc=0, page=0, stop=0, format=2):
    return ['P', position, orbit, trigger, bc, page, stop, format]


def random_packet(c):
    return packet(c.position(), c.orbit(), c.bits(32), c.pick(EDGE_BC), c.pick([0, 0, 1, 2, 65535, c.bits(16)]),
                  c.pick([0, 0, 1, 1, 2, 255]), c.pick([0, 2]))


# A sequence is a list of calls: ['S', settings], ['P', ..], ['W', word], ['R'].


def well_formed(c, settings):
    """Some orbits as a stave sends them: pages, continuations, TDHs without data, CDWs, internal or physics triggers. With a period of
    198 or none they give no record."""
    inner, internal = c.often(0.5), c.often(0.6)
    lanes = 0x1FF if inner else c.pick([0xFFFFFFF, c.bits(28) | 1, 0x7F, 0x3F8])
    ids = [i for n, i in enumerate(INNER if inner else OUTER) if lanes >> n & 1]
    format, status = c.pick([0, 2]), c.pick([0, 0, c.bits(56)])
    position, orbit = c.pick([0, c.bits(40), LAST_POSITION - 2**20]), c.orbit()
    user, index = c.bits(48), 0
    # an internal trigger comes every 198 crossings, over the end of the orbit into the next one
    bc = 198 * c.below(18) if c.often(0.5) else c.below(ORBIT_LENGTH)
    out = [['S', settings]]

    def data(n):
        nonlocal seen, index
        if not seen and c.often(0.3):
            out.append(['W', cdw(user, index)])
            seen, index = True, index + 1
        for _ in range(n):
            out.append(['W', word(c.bits(64) | c.bits(8) << 64, c.pick(ids))])
            seen = True

    def page(number, stop=0):
        nonlocal seen, position
        out.append(packet(position, orbit, trigger, first_bc, number, stop, format))
        position += 64 + 16 * 64
        seen = False

    seen = False
    for _ in range(1 + c.below(3)):
        trigger = (c.bits(32) | 0x10) if c.often(0.7) else (c.bits(32) & ~0x10 | 0x1)
        type, number, first_bc = trigger & 0xFFF, 0, bc
        if c.often(0.3):
            user, index = c.bits(48), 0  # a new calibration step begins with index 0
        page(0)
        out.append(['W', ihw(lanes)])
        while True:
            no_data = int(c.often(0.2))
            out.append(['W', tdh(bc, type, orbit, int(internal), no_data)])
            if not no_data:
                data(c.below(5))
                if c.often(0.25):
                    out.append(['W', tdt(0, status)])
                    number += 1
                    page(number)
                    out.append(['W', ihw(lanes)])
                    out.append(['W', tdh(bc, type, orbit, int(internal), 0, 1)])
                    data(c.below(5))
                out.append(['W', tdt(1, status)])
            bc += 198 if internal else 1 + c.below(600)
            if bc > LAST_BC:
                break
            if not internal:
                type = c.bits(12) | 1
            if c.often(0.15):
                break
            if c.often(0.2):  # the next trigger on a page of its own
                number += 1
                page(number)
                out.append(['W', ihw(lanes)])
        page(number + 1, 1)
        out.append(['W', ddw0(status)])
        if bc > LAST_BC:
            bc -= ORBIT_LENGTH
        orbit = (orbit + 1) % 2**32
    return out


def without_e990(c):
    """A mask for all words of a sequence that in half of the sequences clears bit 13: no TDH is without data then, and the two sides
    never part."""
    return 2**80 - 1 - (1 << 13 if c.often(0.5) else 0)


def damaged(c, settings):
    """A well-formed sequence with damaged words and packets, words lost and doubled, and resets."""
    rate, kept = c.pick([0.01, 0.03, 0.1, 0.3]), without_e990(c)
    out = []
    for call in well_formed(c, settings):
        if call[0] == 'W':
            call = ['W', call[1] & kept]
        if call[0] == 'W' and c.often(rate):
            w, how = call[1], c.below(8)
            if how == 0:
                continue  # lost
            elif how == 1:
                out.append(call)  # doubled
            elif how == 2:
                w ^= 1 << c.below(80)
            elif how == 3:
                w = w & (1 << 72) - 1 | c.bits(8) << 72
            elif how == 4:
                w = w & (1 << 72) - 1 | c.pick([IHW, DDW0, TDH, TDT, CDW]) << 72
            elif how == 5:
                w = w & ~(0xFFF << 16) | c.pick(EDGE_BC) << 16
            elif how == 6:
                w ^= 1 << c.pick([12, 13, 14, 64])  # bits that the machine and the triggers hang on
            else:
                w = c.bits(80)
            call = ['W', w & kept]
        elif call[0] == 'P' and c.often(rate):
            call = call[:]
            field = 1 + c.below(7)
            call[field] = random_packet(c)[field]
        if call[0] == 'W' and c.often(rate / 10):
            out.append(['R'])
        out.append(call)
    return out


def intervals(c, settings):
    """TDHs one after the other, at crossings about the ends and about the set period, legal or not."""
    out = [['S', settings], packet(c.position(), 7, 0x10, c.pick(EDGE_BC), 0, 0, c.pick([0, 2]))]
    legal = [x for x in EDGE_BC if x <= LAST_BC]
    crossings = EDGE_BC if c.often(0.5) else legal
    bc = c.pick(crossings)
    out.append(['W', ihw(1)])
    for _ in range(4 + c.below(12)):
        bc = (bc + 198) % ORBIT_LENGTH if c.often(0.5) else c.pick(crossings)
        internal = int(c.often(0.8))
        how = c.below(6)
        if how == 0:  # a frame without data, then the next one of this packet
            out += [['W', tdh(bc, 0x10, 7, internal)], ['W', tdt(1)]]
        elif how == 1:  # cut over two pages
            out += [['W', tdh(bc, 0x10, 7, internal)], ['W', tdt(0)], packet(0, 7, 0x10, bc, 1, 0, 2), ['W', ihw(1)],
                    ['W', tdh(bc, 0x10, 7, internal, 0, 1)], ['W', tdt(1)]]
        elif how == 2:  # a new start
            out += [['R'], ['W', ihw(1)], ['W', tdh(bc, 0x10, 7, internal, 1)]]
        else:
            out.append(['W', tdh(bc, 0x10, 7, internal, 1)])
    return out


def orbits(c, settings):
    """Internal TDHs whose orbits go on by about the set period, by a few or by about half a turn, or back, over the turn of the orbit number; others
    between them."""
    period = settings[2] if settings[2] != '-' else 198
    out = [['S', settings], packet(c.position(), 7, 0x10, 0, 0, 0, 2), ['W', ihw(1)]]
    at = c.orbit() * ORBIT_LENGTH + c.pick(EDGE_BC[:15])
    for _ in range(6 + c.below(18)):
        on = c.pick([period, period, period, period + c.below(5) - 2, c.below(3) * ORBIT_LENGTH, -c.below(4), -c.below(3) * ORBIT_LENGTH,
                     c.below(10) * ORBIT_LENGTH + c.below(ORBIT_LENGTH), (2**31 - 2 + c.below(4)) * ORBIT_LENGTH + c.below(5) - 2,
                     2**32 * ORBIT_LENGTH - 2 + c.below(5)])
        at = (at + on) % (2**32 * ORBIT_LENGTH)
        bc, orbit = at % ORBIT_LENGTH, at // ORBIT_LENGTH
        if c.often(0.1):  # a crossing that is none; the next one goes on from the legal one
            bc = c.pick([3564, 3565, 4095])
        if c.often(0.2):
            out.append(['W', tdh(c.below(ORBIT_LENGTH), 0x10, c.orbit(), 0, 1)])
        out.append(['W', tdh(bc, 0x10, orbit, 1, 1)])
    return out


def lanes(c, settings):
    """All ids with top bits 001 and 010, and some others, against an IHW's lanes."""
    out = [['S', settings], random_packet(c), ['W', ihw(c.lanes())], ['W', tdh(0, 1, 0)]]
    for id in range(0x1E, 0x62):
        out.append(['W', word(0, id)])
        if c.often(0.05):
            out += [['R'], ['W', ihw(c.lanes())], ['W', tdh(0, 1, 0)]]
    return out


def calibration(c, settings):
    """CDWs: first in a packet or not, user fields and index the same or not, over packets and resets. The IHW of a packet comes after a reset, after a
    DDW0 or in the three-way state."""
    users, indexes = [0, 1, 2**47, c.bits(48)], [0, 0, 1, 0xFFFF, 0x10000, 0xFFFFFF]
    out = [['S', settings]]
    for _ in range(2 + c.below(6)):
        out += [random_packet(c)]
        out += c.pick([[['R']], [['W', ddw0()]], []])
        out += [['W', ihw(0x1FF)], ['W', tdh(0, 1, 0)]]
        for _ in range(c.below(4)):
            out.append(['W', cdw(c.pick(users), c.pick(indexes))] if c.often(0.7) else ['W', word(c.bits(64), 0x20)])
        out += [['W', tdt(1)]]
    return out


def any_words(c, settings):
    """Words and packets by chance alone, half of them with an id that means something."""
    out, kept = [['S', settings], random_packet(c)], without_e990(c)
    for _ in range(8 + c.below(56)):
        id = c.pick([c.bits(8), c.pick([IHW, DDW0, TDH, TDT, CDW]), c.pick(INNER + OUTER)])
        out.append(['W', (c.bits(72) | id << 72) & kept])
        if c.often(0.05):
            out.append(random_packet(c))
        if c.often(0.02):
            out.append(['R'])
    return out


def full_packet(c, settings):
    """A packet of 4,096 words, of which some give records, with a reset in it."""
    out = [['S', settings], random_packet(c), ['W', ihw(0x1FF)], ['W', tdh(5, 1, 0)]]
    for n in range(2, PACKET_WORDS):
        out.append(['W', word(n, 0x20 + c.below(9) if c.often(0.99) else c.bits(8) & 0x7F)])
        if n == 3000:
            out.append(['R'])
    return out


# Ways into each of the seven states, and each way that a rule tells apart.
START = ihw(0x1FF)
FIRST = tdh(5, 0x10, 7)
EMPTY = tdh(5, 0x10, 7, 0, 1)
DATA = word(1, 0x21)
WAYS = {
    'IHW_': [],
    'IHW_ after DDW0': [START, EMPTY, ddw0()],
    'TDH_': [START],
    'TDH_ from THREE': [START, EMPTY, START],
    'DATA_': [START, FIRST],
    'DATA_ with data': [START, FIRST, DATA],
    'THREE after TDT': [START, FIRST, tdt(1)],
    'THREE after a TDH with no data': [START, EMPTY],
    'c_IHW_': [START, FIRST, tdt(0)],
    'c_TDH_': [START, FIRST, tdt(0), START],
    'c_DATA_': [START, FIRST, tdt(0), START, tdh(5, 0x10, 7, 0, 0, 1)],
    'c_DATA_ with data': [START, FIRST, tdt(0), START, tdh(5, 0x10, 7, 0, 0, 1), DATA],
}


def every_id(c, settings_of):
    """Every id byte in every state, and three words behind it that show where it led."""
    number = 0
    for way in WAYS.values():
        for id in range(256):
            rest = c.pick([0, c.bits(72), 1 << c.below(72), 0x10 | c.pick([0, 1]) << 64])
            start = ihw(c.lanes())
            words = [start if w == START else w for w in way] + [word(rest, id), DATA, tdt(1), FIRST]
            yield [['S', settings_of(number)], random_packet(c)] + [['W', w] for w in words]
            number += 1


def every_bit(settings_of):
    """A clean word of each kind with one bit of 71:0 turned, and two words behind it."""
    number = 0
    for way, clean in [('IHW_', START), ('THREE after TDT', START), ('c_IHW_', START), ('TDH_', FIRST), ('THREE after TDT', FIRST),
                       ('c_TDH_', tdh(5, 0x10, 7, 0, 0, 1)), ('DATA_', tdt(1)), ('DATA_', tdt(0)), ('THREE after TDT', ddw0()),
                       ('DATA_', cdw(5, 0)), ('DATA_', DATA)]:
        for bit in range(72):
            words = WAYS[way] + [clean ^ 1 << bit, DATA, tdt(1)]
            yield [['S', settings_of(number)], packet(0, 7, 0x10, 5, number % 2, number // 2 % 2, 2)] + [['W', w] for w in words]
            number += 1


LONG_MAKERS = [orbits, orbits, orbits, intervals, damaged]
MAKERS = [well_formed, well_formed, damaged, damaged, damaged, intervals, intervals, lanes, calibration, any_words, any_words]


def sequences(seed, size):
    c = Chance(seed)
    words = 0
    yield full_packet(c, (1, 1, 198))
    if size == 'short':
        # one setting for each id in each state, all of them in turn
        yield from every_id(c, lambda n: SETTINGS[n % len(SETTINGS)])
        yield from every_bit(lambda n: SETTINGS[n % len(SETTINGS)])
    else:
        for s in SETTINGS:
            yield from every_id(c, lambda n, s=s: s)
            yield from every_bit(lambda n, s=s: s)
        for s in SETTINGS:
            yield full_packet(c, s)
    number = 0
    while words < SIZES[size]:
        made = MAKERS[number % len(MAKERS)](c, SETTINGS[number // len(MAKERS) % len(SETTINGS)])
        words += sum(1 for call in made if call[0] == 'W')
        number += 1
        yield made
    number = words = 0
    while words < SIZES[size] // 4:
        made = LONG_MAKERS[number % len(LONG_MAKERS)](c, LONG_SETTINGS[number // len(LONG_MAKERS) % len(LONG_SETTINGS)])
        words += sum(1 for call in made if call[0] == 'W')
        number += 1
        yield made


def line(call):
    kind = call[0]
    if kind == 'W':
        return 'W ' + ten(call[1]).hex()
    if kind == 'S':
        return 'S ' + ' '.join(map(str, call[1]))
    return ' '.join(map(str, call))


def lines(seed, size):
    for calls in sequences(seed, size):
        for call in calls:
            yield line(call)


if __name__ == '__main__':
    p = argparse.ArgumentParser(description='Call sequences for the comparison.')
    p.add_argument('--size', choices=SIZES, default='short')
    p.add_argument('--seed', type=int, default=1)
    a = p.parse_args()
    for text in lines(a.seed, a.size):
        sys.stdout.write(text + '\n')
