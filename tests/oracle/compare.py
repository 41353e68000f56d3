#!/usr/bin/env python3
"""compare.py: the library and the given Rust on the same call sequences, answer by answer.

    compare.py [--lib ARCHIVE | --plain] [--size short|long] [--seed N] [--build DIR] [--keep DIR]

First come the inputs of smallest/: the library, the Rust's release build and its debug build must answer them as each file says (smallest.py).
Of the generated sequences kinds, guesses, frames, positions, codes, first, second and their order are compared, with the release build. A word's
answers must be equal, or differ exactly as model.py says from the input alone; anything else is unexplained and fails the run. The library's
side also checks what the header promises (khz_driver -c), and the packet of each record, which the Rust has not. Everything is built in a temporary
folder.

    --lib     the archive, for this machine; default: tools/native-lib.sh makes it. --plain takes plain.c in its place
    --build   builds the Rust in DIR and leaves it there for the next run
    --keep    leaves the calls and the answers in DIR: calls.txt, ours.txt, rust.txt; of smallest/ for the debug build smallest.txt, debug.txt;
              of single functions single.txt, release.single.txt, debug.single.txt
    RUST_SRC  the given Rust text, default ../shared/docs/src beside the repository; without it, or without cargo, the comparison is left out, and the last
              line says so
    CC, CFLAGS  the C compiler (default cc) and more flags for it
"""
import argparse
import collections
import os
import shlex
import shutil
import subprocess
import sys
import tempfile

sys.dont_write_bytecode = True  # nothing is left in the repository
HERE = os.path.dirname(os.path.abspath(__file__))
ROOT = os.path.dirname(os.path.dirname(HERE))
sys.path.append(os.path.join(ROOT, 'tests', 'make'))
import generate
import model
import smallest

# what the sequences must bring up on one side or the other, or they are too weak: all codes of docs/CODES.md, and 990
CODES = {30, 40, 41, 42, 44, 45, 50, 59, 60, 70, 81, 440, 441, 442, 443, 444, 445, 990, 991, 992,
         1045, 1046, 1071, 1072, 1073, 1074, 1110, 1111, 1120, 1121, 1122}
KINDS = {'IHW', 'IHW_continuation', 'TDH', 'TDH_after_packet_done', 'TDH_continuation', 'DataWord', 'CDW', 'TDT', 'DDW0'}


class Failed(Exception):
    pass


class LeftOut(Exception):
    pass


def build_ours(folder, archive, plain=None):
    """The library's driver, over an archive or over a plain.c."""
    driver = os.path.join(folder, 'khz_driver')
    command = shlex.split(os.environ.get('CC', 'cc')) + ['-std=c11', '-O2', '-Wall', '-Wextra'] + shlex.split(os.environ.get('CFLAGS', ''))
    command += ['-I', os.path.join(ROOT, 'include')]
    if plain:
        command += ['-DPLAIN', '-I', HERE]  # a wrong version stands elsewhere, and its header here
    command += [os.path.join(HERE, 'khz_driver.c'), plain or archive, '-o', driver]
    try:
        subprocess.run(command, check=True)
    except (OSError, subprocess.CalledProcessError) as e:
        raise Failed('khz_driver was not built: %s' % e)
    return driver


def build_rust(folder, **more):
    done = subprocess.run(['sh', os.path.join(HERE, 'build.sh')], env=dict(os.environ, BUILD_DIR=folder, **more), text=True,
                          stdout=subprocess.PIPE, stderr=subprocess.PIPE)
    if done.returncode == 3:
        raise LeftOut(done.stderr.strip())
    if done.returncode != 0:
        raise Failed('the Rust was not built:\n' + done.stderr)
    return done.stdout.strip()


def run(command, calls, answers):
    with open(calls) as i, open(answers, 'w') as o:
        status = subprocess.run(command, stdin=i, stdout=o).returncode
    if status != 0:
        raise Failed('%s: exit status %d' % (' '.join(command), status))


def write_lines(path, *lists):
    with open(path, 'w') as out:
        for lines in lists:
            for line in lines:
                out.write(line + '\n')


def make_calls(path, inputs, seed, size):
    """The smallest inputs, then the generated sequences."""
    write_lines(path, smallest_lines(inputs), generate.lines(seed, size))


def smallest_lines(inputs):
    return [line for i in inputs for line in i.lines()]


class Tally:
    def __init__(self):
        self.words = self.apart = 0
        self.differences = collections.Counter()  # by class
        self.codes, self.kinds = collections.Counter(), collections.Counter()
        self.unexplained = []
        self.otherwise = []  # smallest inputs that are answered otherwise than they say


def compare(calls, ours, rust, inputs, debug=None):
    """Walks the calls and both answers. The class of a difference comes from the calls alone. `debug`: the debug build's answers to the inputs."""
    t, m = Tally(), model.Model()
    with open(calls) as c, open(ours) as o, open(rust) as r, open(debug or os.devnull) as d:
        t.otherwise = smallest.check_answers(inputs, {'we': o, 'release': r, 'debug': d} if debug else {'we': o, 'release': r})
        first = len(smallest_lines(inputs))
        for number, line in enumerate(c, 1):
            if number <= first:
                continue
            f = line.split()
            if f[0] == 'S':
                m.start(f[1] == '1', f[2] == '1', None if f[3] == '-' else int(f[3]), *map(int, f[4:]))
            elif f[0] == 'P':
                m.packet(int(f[1]), int(f[5]), int(f[6]), int(f[7]))
            elif f[0] == 'R':
                m.reset()
            elif f[0] == 'W':
                a, b = o.readline().rstrip('\n'), r.readline().rstrip('\n')
                for answer in {a, b}:
                    parts = answer.split(' ; ')
                    t.kinds[parts[0].split(' ')[0]] += 1
                    for record in parts[1:]:
                        t.codes[record.split(' ')[1]] += 1
                if m.apart:
                    t.apart += 1
                    continue
                said = m.word(f[1])
                t.words += 1
                if a == b and said is None:
                    continue
                if said is not None and a != b and model.as_said(said, a, b):
                    t.differences[said.kind] += 1
                else:
                    t.unexplained.append((number, line.rstrip(), said.kind if said else 'no difference', a, b))
        if o.readline() or r.readline() or d.readline():
            t.unexplained.append((0, '', '', 'more answers than words', ''))
    return t


def check_single(singles, drivers, folder, keep):
    """The smallest inputs of single functions: what is answered otherwise than they say, and what of them is left out."""
    asked = os.path.join(keep, 'single.txt')
    write_lines(asked, smallest_lines(singles))
    answers = {side: os.path.join(keep, side + '.single.txt') for side in drivers}
    for side, driver in drivers.items():
        run([driver], asked, answers[side])
    with open(answers['release']) as r, open(answers['debug']) as d:
        wrong = smallest.check_answers(singles, {'release': r, 'debug': d})
    if not shutil.which('rt'):
        return wrong, '; our side of %d single functions is left out: no Rattle kit on the PATH' % len(singles)
    said = smallest.run_ours(singles, folder)
    return wrong + ([] if said is None else ['single.rattle:\n' + said]), ''


def report(t):
    """Prints the outcome of the sequences; True when nothing is unexplained."""
    wrong = ['no sequence gave code %d' % c for c in sorted(CODES - {int(c) for c in t.codes})]
    wrong += ['no sequence gave kind %s' % k for k in sorted(KINDS - set(t.kinds))]
    for number, line, said, a, b in t.unexplained[:10]:
        print('line %d: %s\n  by the input: %s\n  ours: %s\n  rust: %s' % (number, line, said, a, b))
    for w in wrong:
        print('oracle: ' + w)
    print('oracle: %d words more, behind an E990 in their sequence, were not compared' % t.apart)
    print('oracle: %d words compared, %d unexplained differences (%s)'
          % (t.words, len(t.unexplained), ', '.join('%s %d' % (c, t.differences[c]) for c in model.CLASSES)))
    return not wrong and not t.unexplained


def main():
    p = argparse.ArgumentParser(description='The library and the given Rust on the same call sequences.')
    p.add_argument('--lib')
    p.add_argument('--plain', action='store_true')
    p.add_argument('--size', choices=generate.SIZES, default='short')
    p.add_argument('--seed', type=int, default=1)
    p.add_argument('--build')
    p.add_argument('--keep')
    a = p.parse_args()
    inputs, singles = smallest.read()
    amiss = smallest.check_form(inputs + singles)
    if amiss:
        raise Failed('\n'.join(amiss))
    with tempfile.TemporaryDirectory(prefix='khandzorul-oracle-') as folder:
        work = a.keep or folder
        os.makedirs(work, exist_ok=True)
        calls, ours, rust, few, debug = (os.path.join(work, n) for n in ('calls.txt', 'ours.txt', 'rust.txt', 'smallest.txt', 'debug.txt'))
        archive = a.lib or os.path.join(folder, 'libkhandzorul.a')
        if not a.plain and not a.lib:
            subprocess.run(['sh', os.path.join(ROOT, 'tools', 'native-lib.sh'), 'khandzorul', archive])
        if not a.plain and not os.path.exists(archive):
            raise Failed('no archive%s' % (' at ' + a.lib if a.lib else ''))
        driver = build_ours(folder, archive, os.path.join(HERE, 'plain.c') if a.plain else None)
        make_calls(calls, inputs, a.seed, a.size)
        run([driver, '-c'], calls, ours)
        print('oracle: the promises of khandzorul.h hold on these sequences (%s)' % ('tests/oracle/plain.c' if a.plain else archive), flush=True)
        built = a.build or os.path.join(folder, 'rust')
        drivers = {'release': build_rust(built, WITH_DEBUG='1'), 'debug': os.path.join(built, 'target', 'debug', 'driver')}
        run([drivers['release']], calls, rust)
        write_lines(few, smallest_lines(inputs))
        run([drivers['debug']], few, debug)
        t = compare(calls, ours, rust, inputs, debug)
        otherwise, left = check_single(singles, drivers, folder, work)
        otherwise += t.otherwise
        for o in otherwise:
            print('oracle: ' + o)
        print('oracle: %d smallest inputs, on our side and on both builds of the Rust, %d answers not as said%s' % (len(inputs + singles), len(otherwise), left))
        return report(t) and not otherwise


if __name__ == '__main__':
    try:
        sys.exit(0 if main() else 1)
    except LeftOut as e:
        print('oracle: left out (%s)' % e)
    except Failed as e:
        print('oracle: failed: %s' % e)
        sys.exit(1)
