#!/usr/bin/env python3
"""record.py: the Rust's answers to a fixed list of call sequences, as the files that the program vectors replays: data/ of crates/vectors, and its stdout.

    record.py [--check] [--build DIR]        --build: builds the Rust in DIR and leaves it there for the next run

Sequences that show a difference of docs/DIFFERENCES.md, by model.py, are left out, but for 3: where there is no such lane, the Rust must answer as model.py
says, and what is recorded is the 1074 that model.py says of us. --check writes nothing and says whether the files are what would be written. Without the
Rust's text or cargo (tests/oracle/README.md) nothing is done, and the last line says so.

A file is a list of calls, numbers little-endian:

    0   start: running, frames, periodic, period (2 bytes)
    1   packet: position (8), orbit (4), trigger type (4), BC (2), page (2), stop, format
    2   reset
    3   word: its ten bytes; answer: kind, guessed, frame, how many records; where the frame is 2, its start and end (8 each);
        then each record: position (8), code (2), first (4), second (4)
"""
import argparse
import os
import subprocess
import sys
import tempfile

sys.dont_write_bytecode = True  # nothing is left in the repository
sys.path.append(os.path.join(os.path.dirname(os.path.abspath(__file__)), '..', 'oracle'))
import compare
import generate
import made
import model

SEED = 2024
KINDS = ['', 'IHW', 'IHW_continuation', 'TDH', 'TDH_after_packet_done', 'TDH_continuation', 'DataWord', 'CDW', 'TDT', 'DDW0']
# the codes that the given text decides, but for 990, which 01 rules out, and 1074, which stands in the place of what it says; the recorded answers have all
# of them
CODES = {40, 41, 42, 44, 45, 59, 70, 81, 440, 441, 442, 443, 444, 445, 991, 992, 1074}
MOST_CALLS = 65536  # of a file; vectors goes no further


class Shown(Exception):
    """The sequence shows a difference that is not recorded."""


def follow(calls, differences=None):
    """The model behind the calls of a sequence. `differences`: gets what it says of each word."""
    m = model.Model()
    for call in calls:
        if call[0] == 'S':
            running, frames, period = call[1]
            m.start(bool(running), bool(frames), None if period == '-' else period)
        elif call[0] == 'P':
            m.packet(call[1], call[5], call[6], call[7])
        elif call[0] == 'R':
            m.reset()
        else:
            said = m.word(made.ten(call[1]).hex())
            if said is not None and said.kind != model.NO_LANE:
                raise Shown
            if differences is not None:
                differences.append(said)
    return m


def clean(calls):
    try:
        follow(calls)
        return True
    except Shown:
        return False


class Walk:
    """A sequence that is made step by step, with the state that it is in."""

    def __init__(self, c, settings):
        self.c, self.out = c, [['S', settings], generate.random_packet(c)]

    def state(self):
        return follow(self.out).state

    def any(self, id, kept=2**72 - 1):
        """A word of this id; what else is in it is of no matter to the state, but for the bits that are not kept."""
        c = self.c
        rest = c.pick([0, c.bits(72), 1 << c.below(72), c.bits(28), 0x10 | c.pick([0, 1]) << 64])
        self.out.append(['W', rest & kept | id << 72])

    def word(self, w):
        self.out.append(['W', w])

    def reset(self):
        self.out.append(['R'])


def through_ids(c, settings, ids):
    """Each of these ids in the states IHW_, TDH_, DATA_ and THREE."""
    walk = Walk(c, settings)
    for n, id in enumerate(ids):
        if walk.state() != 'IHW_':
            walk.reset()
        walk.any(id)
        walk.any(ids[n - 1], 2**72 - 1 - (1 << 13))
        walk.any(ids[n - 2])
        if walk.state() == 'c_IHW_':
            walk.word(generate.START)
            walk.word(generate.FIRST)
        if walk.state() == 'DATA_':
            walk.word(made.tdt(1))
        walk.any(ids[n - 3])
    return walk.out


def through_continued_ids(c, settings, ids):
    """Each of these ids in the states c_IHW_, c_TDH_ and c_DATA_."""
    walk = Walk(c, settings)
    for n, id in enumerate(ids):
        if walk.state() != 'c_IHW_':
            walk.reset()
            for w in generate.WAYS['c_IHW_']:
                walk.word(w)
        walk.any(id)
        walk.any(ids[n - 1])
        walk.any(ids[n - 2])
        if walk.state() == 'DATA_':
            walk.word(made.tdt(0))
    return walk.out


def until_clean(make):
    for _ in range(1000):
        try:
            calls = make()
            if clean(calls):
                return calls
        except Shown:
            pass
    raise compare.Failed('no sequence without a difference was found')


def words_in(calls):
    return sum(1 for call in calls if call[0] == 'W')


def met(calls):
    """The states and the ids met in them."""
    return {(follow(calls[:n]).state, call[1] >> 72) for n, call in enumerate(calls) if call[0] == 'W'}


def ids(c):
    """Every id byte in every state. The model has one state for DATA_ and c_DATA_, which have the same rows."""
    number = 0
    for make, states in ((through_ids, ('IHW_', 'TDH_', 'DATA_', 'THREE')), (through_continued_ids, ('c_IHW_', 'c_TDH_', 'DATA_'))):
        missing = {(state, id) for state in states for id in range(256)}
        for first in range(0, 256, 16):
            settings = generate.SETTINGS[7 * number % len(generate.SETTINGS)]
            calls = until_clean(lambda: make(c, settings, list(range(first, first + 16))))
            missing -= met(calls)
            number += 1
            yield calls
        if missing:
            raise compare.Failed('ids: not met: %s' % sorted(missing))


def some(maker, words):
    """Sequences of a maker with all settings in turn, so many words of them."""

    def sequences(c):
        number = done = 0
        while done < words:
            settings = generate.SETTINGS[7 * number % len(generate.SETTINGS)]
            calls = until_clean(lambda: maker(c, settings))
            number, done = number + 1, done + words_in(calls)
            yield calls

    return sequences


# The files, in the order in which vectors replays them.
FILES = [('ids', ids), ('orbits', some(generate.well_formed, 700)), ('damaged', some(generate.damaged, 900)),
         ('intervals', some(generate.intervals, 500)), ('lanes', some(generate.lanes, 350)), ('cdws', some(generate.calibration, 450)),
         ('chance', some(generate.any_words, 500))]


def call_bytes(call):
    """A start, a packet or a reset."""
    if call[0] == 'S':
        running, frames, period = call[1]
        return bytes([0, running, frames, period != '-']) + (0 if period == '-' else period).to_bytes(2, 'little')
    if call[0] == 'R':
        return b'\2'
    return b'\1' + b''.join(n.to_bytes(size, 'little') for n, size in zip(call[1:], (8, 4, 4, 2, 2, 1, 1)))


def answer_bytes(answer, codes):
    """An answer to a word."""
    parts = answer.split(' ; ')
    kind, guessed, frame = parts[0].split(' ')
    out = bytes([KINDS.index(kind), int(guessed), {'-': 0, 'O': 1}.get(frame, 2), len(parts) - 1])
    if frame[0] == 'C':
        out += b''.join(int(n).to_bytes(8, 'little') for n in frame.split(':')[1:])
    for record in parts[1:]:
        numbers = [int(n) for n in record.split(' ')]
        codes.add(numbers[1])
        out += b''.join(n.to_bytes(size, 'little') for n, size in zip(numbers, (8, 2, 4, 4)))
    return out


def recorded_answer(said, rust):
    """What is recorded of a word to which the Rust said this."""
    if said is None:
        return rust
    if rust != said.rust:
        raise compare.Failed('where there is no such lane the Rust answers %s, not %s' % (rust, said.rust))
    return said.ours


def record(driver, codes):
    """Each file's name, bytes, sequences and words."""
    c = generate.Chance(SEED)
    for name, make in FILES:
        sequences = list(make(c))
        calls = [call for s in sequences for call in s]
        asked = ''.join(generate.line(call) + '\n' for call in calls)
        answers = iter(subprocess.run([driver], input=asked, text=True, stdout=subprocess.PIPE, check=True).stdout.splitlines())
        differences = []
        for sequence in sequences:
            follow(sequence, differences)
        said, out = iter(differences), b''
        for call in calls:
            if call[0] == 'W':
                out += b'\3' + made.ten(call[1]) + answer_bytes(recorded_answer(next(said), next(answers)), codes)
            else:
                out += call_bytes(call)
        if next(answers, None) is not None or len(calls) > MOST_CALLS:
            raise compare.Failed('%s: more answers than words, or too many calls' % name)
        yield name, out, len(sequences), words_in(calls)


def printed(counts):
    """What vectors is to print: each file with its sequences and words, and all of them."""
    counts = counts + [('all', sum(s for _, s, _ in counts), sum(w for _, _, w in counts))]
    return ''.join('%s: %d sequences, %d words, 0 differ\n' % count for count in counts)


def main():
    p = argparse.ArgumentParser(description="The Rust's answers, as the files that vectors replays.")
    p.add_argument('--check', action='store_true')
    p.add_argument('--build')
    a = p.parse_args()
    codes = set()
    with tempfile.TemporaryDirectory(prefix='khandzorul-record-') as folder:
        recorded = list(record(compare.build_rust(a.build or folder), codes))
    if CODES - codes:
        raise compare.Failed('no answer has the codes %s' % sorted(CODES - codes))
    files = {'vectors/data/' + name: out for name, out, _, _ in recorded}
    files['vectors/stdout'] = printed([(name, s, w) for name, _, s, w in recorded]).encode()
    other = made.others(files) if a.check else []
    if not a.check:
        made.write(files)
    print('record: %d sequences, %d words; %s' % (sum(s for _, _, s, _ in recorded), sum(w for _, _, _, w in recorded),
                                                 'other than recorded: ' + ' '.join(other) if other else 'as recorded' if a.check else 'written'))
    return not other


if __name__ == '__main__':
    try:
        sys.exit(0 if main() else 1)
    except compare.LeftOut as e:
        print('record: left out (%s)' % e)
    except compare.Failed as e:
        print('record: failed: %s' % e)
        sys.exit(1)
