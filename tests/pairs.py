#!/usr/bin/env python3
"""pairs.py: random pairs of bench files through the program compare, each output held byte by byte to a listing that is made here.

    pairs.py [--pairs N] [--seed S] -- COMMAND..        COMMAND: how to run compare, in a folder with first.bench and second.bench

The listing is written from the rules alone (document 02, ticket 5; docs/RULES.md, "Comparing two files"), not from the program. Then the same
outputs are held to listings with one mistake each, which some pair must notice. Exit status 1 where an output is another, where a mistake goes
unnoticed, or where a kind of line or refusal did not occur.
"""
import concurrent.futures
import os
import random
import struct
import subprocess
import sys
import tempfile

sys.dont_write_bytecode = True  # nothing is left in the repository
sys.path.append(os.path.join(os.path.dirname(os.path.abspath(__file__)), 'make'))
import made
from made import HEADER, PACKET

TOPS = [2**62, 2**32 - 1, 2**32 - 1, 4095, 2**16 - 1, 2**8 - 1]


# --- what is to be printed ---

class Listing:
    """The rules, in parts, so that a mistake can change one of them."""
    most = 28000
    fields = range(7)

    def refusal(self, data):
        if not 16 <= len(data) <= self.most:
            return 6
        packets, words, packets_at, words_at = HEADER.unpack_from(data)
        if packets_at != 16 or words_at != 16 + 24 * packets or len(data) != words_at + 10 * words:
            return 6
        heads = self.heads(data)
        if sum(h[7] for h in heads) != words:
            return 7
        for h in heads:
            if h[0] > TOPS[0] or h[3] > TOPS[3] or h[6] not in (0, 2):
                return 5
            if h[7] > 4096:
                return 3
        return 0

    def heads(self, data):
        return [PACKET.unpack_from(data, 16 + 24 * i) for i in range(HEADER.unpack_from(data)[0])]

    def words(self, data):
        """The words of each packet."""
        heads, at, out = self.heads(data), 16 + 24 * HEADER.unpack_from(data)[0], []
        for h in heads:
            out.append([data[at + 10 * w:at + 10 * w + 10] for w in range(h[7])])
            at += 10 * h[7]
        return out

    def counts(self, a, b):
        (packets, words), (packets2, words2) = HEADER.unpack_from(a)[:2], HEADER.unpack_from(b)[:2]
        yield 'packets', packets, packets2
        yield 'words', words, words2
        for p, (h, k) in enumerate(zip(self.heads(a), self.heads(b))):
            yield f'count {p}', h[7], k[7]

    def bytes_of(self, p, one, other):
        for w in range(min(len(one), len(other))):
            for k in range(10):
                yield f'byte {p} {w} {k}', one[w][k], other[w][k]

    def places(self, a, b):
        yield from self.counts(a, b)
        for p, (h, k, one, other) in enumerate(zip(self.heads(a), self.heads(b), self.words(a), self.words(b))):
            for f in self.fields:
                yield f'field {p} {f}', h[f], k[f]
            yield from self.bytes_of(p, one, other)

    def refused(self, a, b):
        return [(n, f) for f, n in enumerate((self.refusal(a), self.refusal(b))) if n]

    def text(self, a, b):
        for n, f in self.refused(a, b):
            return f'refused {n} {f}\n'
        lines = [f'{at} {x} {y}\n' for at, x, y in self.places(a, b) if x != y]
        return ''.join(lines) + f'differences {self.number(lines)}\n'

    def number(self, lines):
        return len(lines)


class SecondFileRefusedFirst(Listing):
    def refused(self, a, b):
        return Listing.refused(self, a, b)[::-1]


class FileOf28000Refused(Listing):
    most = 27999


class FormatLeftOut(Listing):
    fields = range(6)


class CountsNotCounted(Listing):
    def number(self, lines):
        return sum(line.startswith(('field', 'byte')) for line in lines)


class CountsLast(Listing):
    def places(self, a, b):
        counts = list(self.counts(a, b))
        yield from list(Listing.places(self, a, b))[len(counts):]
        yield from counts


class CountsOfOneFileToo(Listing):
    def counts(self, a, b):
        yield from Listing.counts(self, a, b)
        both = min(len(self.heads(a)), len(self.heads(b)))
        for p, h in enumerate(self.heads(a)[both:], both):
            yield f'count {p}', h[7], 0


class WordsNumberedThrough(Listing):
    def words(self, data):
        every = [w for ws in Listing.words(self, data) for w in ws]
        return [every[i:] for i in range(len(self.heads(data)))]


class WordsOfOneFileToo(Listing):
    def bytes_of(self, p, one, other):
        longest = max(len(one), len(other))
        one, other = (ws + [bytes(10)] * (longest - len(ws)) for ws in (one, other))
        return Listing.bytes_of(self, p, one, other)


class FirstByteOfAWordAlone(Listing):
    def bytes_of(self, p, one, other):
        seen = set()
        for at, x, y in Listing.bytes_of(self, p, one, other):
            word = at.rsplit(' ', 1)[0]
            if x == y or word not in seen:
                yield at, x, y
            if x != y:
                seen.add(word)


MISTAKES = [SecondFileRefusedFirst, FileOf28000Refused, FormatLeftOut, CountsNotCounted, CountsLast, CountsOfOneFileToo, WordsNumberedThrough,
            WordsOfOneFileToo, FirstByteOfAWordAlone]


# --- the files ---

def field(r, f):
    top = TOPS[f] if f < 6 else 2
    return r.choice([0, 2]) if f == 6 else r.choice([0, 1, top - 1, top, r.randint(0, top)])


def run(r, packets=None, words=5):
    """Packets as lists: seven fields, and the words."""
    number = r.randint(1, 5) if packets is None else packets
    return [[field(r, f) for f in range(7)] + [[r.getrandbits(80) for _ in range(r.randint(0, words))]] for _ in range(number)]


def file(packets):
    return made.file(*(made.packet(p[7], *p[:7]) for p in packets))


def flip(r, data, low, high):
    at = r.randrange(low, max(high, low + 1))
    return data[:at] + bytes([data[at] ^ 1 << r.randrange(8)]) + data[at + 1:] if at < len(data) else data


def refused(r, packets):
    """A file that is refused, one way or another; sometimes one that still is not."""
    data = file(packets)
    how = r.randrange(9)
    if how == 0:
        return data[:r.randrange(len(data))]
    if how == 1:
        return data + r.randbytes(r.randint(1, 30))
    if how == 2:
        return flip(r, data, 0, 16)
    if how == 3:
        at = r.choice([0, 4, 8, 12])
        return data[:at] + struct.pack('<I', r.choice([2**32 - 1, 2**31, 0, 17])) + data[at + 4:]
    if how == 4:
        return file([packets[0][:7] + [[0] * 2798]])  # 28,020 bytes
    if how == 5:
        return flip(r, data, 38, 40)  # the first packet's count
    at, number = [(0, struct.pack('<Q', r.choice([2**62 + 1, 2**64 - 1]))), (16, struct.pack('<H', r.choice([4096, 65535]))),
                  (21, bytes([r.choice([1, 3, 255])]))][how - 6]  # position, BC, format
    at += 16 + 24 * r.randrange(len(packets))
    return data[:at] + number + data[at + len(number):]


def pair(r, kind):
    a = run(r)
    b = [p[:7] + [list(p[7])] for p in a]
    p = r.choice(b)
    if kind == 'equal':
        pass
    elif kind == 'a byte':
        return file(a), flip(r, file(b), 0, len(file(b)))
    elif kind == 'bytes of words':
        data = file(b)
        for _ in range(r.randint(1, 40)):
            data = flip(r, data, 16 + 24 * len(b), len(data))
        return file(a), data
    elif kind == 'fields':
        for f in r.sample(range(7), r.randint(1, 7)):
            p[f] = field(r, f)
    elif kind == 'a word lost':
        if p[7]:
            del p[7][r.randrange(len(p[7]))]
    elif kind == 'words moved':
        q = r.choice(b)
        q[7] += p[7]
        p[7] = [] if p is not q else p[7]
    elif kind == 'packets lost or added':
        b = r.choice([b[1:], b[:-1], [], b + run(r), run(r) + b])
    elif kind == 'unrelated':
        b = run(r)
    elif kind == 'refused':
        return [(refused(r, a), file(b)), (file(a), refused(r, b)), (refused(r, a), refused(r, b))][r.randrange(3)]
    elif kind == 'the longest':
        shape = r.choice([(1, 2796), (1166, 0), (6, 2784)])  # 16 + 24 packets + 10 words is 28,000
        heads = run(r, shape[0], 0)
        for i in range(shape[1]):
            heads[i % shape[0]][7].append(r.getrandbits(80) if i % 7 else 0)
        data = file(heads)
        return data, r.choice([flip(r, data, 16 + 24 * shape[0] - 8, len(data)), data, data[:-1] + b'\x2a', data + b'\0'])
    return r.choice([(file(a), file(b)), (file(b), file(a))])


KINDS = ['equal', 'a byte', 'bytes of words', 'fields', 'a word lost', 'words moved', 'packets lost or added', 'unrelated', 'refused', 'the longest']
LINES = ['packets', 'words', 'count', 'field', 'byte', 'differences 0'] + [f'refused {n} {f}' for n in (5, 6, 7) for f in (0, 1)]


def printed(command, first, second):
    with tempfile.TemporaryDirectory(prefix='khandzorul-pairs.') as folder:
        for name, data in (('first.bench', first), ('second.bench', second)):
            with open(os.path.join(folder, name), 'wb') as f:
                f.write(data)
        done = subprocess.run(command, cwd=folder, stdin=subprocess.DEVNULL, capture_output=True, timeout=120)
        return done.stdout.decode() if done.returncode == 0 and not done.stderr else f'{done.returncode}: {done.stdout} {done.stderr}'


def option(options, name, other):
    return int(options[options.index(name) + 1]) if name in options else other


def main():
    at = sys.argv.index('--')
    options, command = sys.argv[1:at], sys.argv[at + 1:]
    number, seed = option(options, '--pairs', 400), option(options, '--seed', 5)
    pairs = [pair(random.Random(f'{seed} {i}'), KINDS[i % len(KINDS)]) for i in range(number)]
    with concurrent.futures.ThreadPoolExecutor(2) as pool:
        outputs = list(pool.map(lambda p: printed(command, *p), pairs))
    rules = Listing()
    wrong = 0
    for i, ((a, b), output) in enumerate(zip(pairs, outputs)):
        must = rules.text(a, b)
        if output != must:
            wrong += 1
            differ = [(x, y) for x, y in zip(output.split('\n') + [''], must.split('\n') + ['']) if x != y][:1]
            print(f'pairs: pair {i} of seed {seed} ({KINDS[i % len(KINDS)]}; {len(a)} and {len(b)} bytes): printed and must be {differ}')
    all_lines = '\n' + '\n'.join(outputs)
    missing = [line for line in LINES if '\n' + line not in all_lines]
    unnoticed = [m.__name__ for m in MISTAKES if all(m().text(a, b) == output for (a, b), output in zip(pairs, outputs))]
    for line in missing:
        print(f'pairs: no pair gave a line {line}')
    for name in unnoticed:
        print(f'pairs: no pair notices the mistake {name}')
    refusals = sum(o.startswith('refused') for o in outputs)
    same = sum(o == 'differences 0\n' for o in outputs)
    print(f'pairs: {number} pairs: {number - refusals - same} different, {same} equal, {refusals} refused; {wrong} not as the rules say; '
          f'{len(MISTAKES) - len(unnoticed)} of {len(MISTAKES)} mistakes noticed')
    sys.exit(1 if wrong or missing or unnoticed else 0)


main()
