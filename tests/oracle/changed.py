#!/usr/bin/env python3
"""changed.py: one byte of a recorded answer changed at a time, each of which the program vectors must notice. It tests vectors.

    changed.py [--seed N] [--most N] COMMAND..        COMMAND: how to run vectors, in a folder with its data

Each kind of byte that an answer has is changed in each file, at words taken by chance, and so is the number of a call; each file is cut, emptied
and taken away, and at last all of them. Noticed means that the output is another than crates/vectors/stdout, and that it names a file without
words. First the sequences and words of the data are counted here and stdout is held to them: a run over nothing can't be what is expected.
"""
import argparse
import os
import shutil
import subprocess
import sys
import tempfile

sys.dont_write_bytecode = True  # nothing is left in the repository
import compare  # and with it what makes the data: tests/make
import generate
import record

VECTORS = os.path.join(compare.ROOT, 'crates', 'vectors')
SIZES = {0: 6, 1: 23, 2: 1, 3: 15}  # of a call, as record.py says, before what hangs on a word's frame and records
RECORD = [('position', 8), ('code', 2), ('first', 4), ('second', 4)]


def places(data):
    """For each name of a byte's place, where such bytes stand."""
    out, at = {}, 0

    def add(name, size=1):
        nonlocal at
        out.setdefault(name, []).extend(range(at, at + size))
        at += size

    while at < len(data):
        tag = data[at]
        add('call')
        at += SIZES[tag] - 1
        if tag == 3:
            at -= 4
            frame, records = data[at + 2], data[at + 3]
            for name in ('kind', 'guessed', 'frame', 'records'):
                add(name)
            if frame == 2:
                add('frame start', 8)
                add('frame end', 8)
            for _ in range(records):
                for name, size in RECORD:
                    add(name, size)
    return out


def expected(files):
    """What vectors must write of these files, by the calls in them; all of them must have words."""
    out, sums = '', [0, 0]
    for name, data in files:
        calls = [data[at] for at in places(data)['call']]
        counts = [calls.count(0), calls.count(3)]
        if not all(counts):
            raise compare.Failed(name + ' has no sequence or no word')
        sums = [a + b for a, b in zip(sums, counts)]
        out += '%s: %d sequences, %d words, 0 differ\n' % (name, *counts)
    return out + 'all: %d sequences, %d words, 0 differ\n' % tuple(sums)


def main():
    p = argparse.ArgumentParser(description='Changed bytes that vectors must notice.')
    p.add_argument('--seed', type=int, default=1)
    p.add_argument('--most', type=int, default=2, help='changes of each kind in each file')
    p.add_argument('command', nargs='+')
    a = p.parse_args()
    c, tried, missed = generate.Chance(a.seed), 0, []
    with open(os.path.join(VECTORS, 'stdout'), encoding='ascii') as f:
        right = f.read()
    with tempfile.TemporaryDirectory(prefix='khandzorul-changed-') as folder:
        shutil.copytree(os.path.join(VECTORS, 'data'), folder, dirs_exist_ok=True)

        def says():
            done = subprocess.run(a.command, cwd=folder, stdout=subprocess.PIPE, encoding='ascii')
            if done.returncode != 0:
                raise compare.Failed('vectors ended with %d' % done.returncode)
            return done.stdout

        def read(name):
            with open(os.path.join(folder, name), 'rb') as f:
                return f.read()

        def write(name, data):
            with open(os.path.join(folder, name), 'wb') as f:
                f.write(data)

        def expect(what, *lines):
            """Another output than the right one, with these lines in it."""
            nonlocal tried
            tried += 1
            said = says()
            if said == right or not set(lines) <= set(said.splitlines()):
                missed.append(what)

        names = [name for name, _ in record.FILES]
        if expected([(name, read(name)) for name in names]) != right:
            raise compare.Failed('the stdout of vectors is not what is in its data')
        if says() != right:
            raise compare.Failed('vectors does not write what its stdout has, with nothing changed')
        for name in names:
            data = read(name)
            for place, where in places(data).items():
                for _ in range(a.most):
                    at, by = c.pick(where), 1 + c.below(255)
                    write(name, data[:at] + bytes([data[at] ^ by]) + data[at + 1:])
                    expect('%s: byte %d, %s' % (name, at, place))
            write(name, data[:-1])
            expect(name + ': cut by one byte')
            write(name, b'')
            expect(name + ': empty', name + ': nothing was compared', 'files without a word to compare: 1 of 7')
            os.remove(os.path.join(folder, name))
            expect(name + ': not there', name + ': missing', 'files without a word to compare: 1 of 7')
            write(name, data)
        for name in names:
            os.remove(os.path.join(folder, name))
        expect('no file there', 'all: nothing was compared', 'files without a word to compare: 7 of 7')
    for what in missed:
        print('changed: not noticed: ' + what)
    print('changed: %d changes of the recorded answers, %d not noticed' % (tried, len(missed)))
    return not missed


if __name__ == '__main__':
    try:
        sys.exit(0 if main() else 1)
    except compare.Failed as e:
        print('changed: failed: %s' % e)
        sys.exit(1)
