#!/usr/bin/env python3
"""texts.py: texts through the program benchwrite, each output held byte by byte to a file or a refusal that is made here.

    texts.py [--texts N] [--seed S] -- COMMAND..        COMMAND: how to run benchwrite, the text on standard input

What must be printed is written from the rules alone (docs/RULES.md, "The text form", "Words", "Bench file"), not from the program. The texts are
the scripts of examples/, one for every fault and every limit, and N random ones; some come in pieces. Then the same outputs are held to rules with one
mistake each, which some text must notice. Exit status 1 where an output is another, where a mistake goes unnoticed, or where a refusal, or a file, did
not occur.
"""
import concurrent.futures
import glob
import os
import random
import re
import subprocess
import sys

TOP = os.path.dirname(os.path.dirname(os.path.abspath(__file__)))

# A word's id and its fields, in the order of a line: the lowest bit and how many.
WORDS = {
    'ihw': (0xE0, [(0, 28)]),
    'tdh': (0xE8, [(0, 12), (12, 1), (13, 1), (14, 1), (16, 12), (32, 32)]),
    'tdt': (0xF0, [(0, 56), (63, 1), (62, 1), (61, 1), (67, 1), (65, 1), (64, 1)]),
    'ddw0': (0xE4, [(0, 56), (67, 1), (65, 1), (68, 4)]),
    'cdw': (0xF8, [(0, 48), (48, 24)]),
    'data': (None, [(72, 8)] + [(8 * k, 8) for k in range(9)]),
}
DATA_IDS = [*range(0x20, 0x29), *range(0x40, 0x47), *range(0x48, 0x4F), *range(0x50, 0x57), *range(0x58, 0x5F)]
# A packet's fields: the largest number, and the bytes.
PACKET = [(2**62, 8), (2**32 - 1, 4), (2**32 - 1, 4), (4095, 2), (2**16 - 1, 2), (2**8 - 1, 1), (2, 1)]
NUMBERS = {'packet': len(PACKET), **{name: len(fields) for name, (_, fields) in WORDS.items()}}


# --- what is to be printed ---

class Rules:
    """The rules, in parts, so that a mistake can change one of them."""
    first_line = 1
    most_line = 512
    most_words = 4096
    most_bytes = 60000
    blanks = b' \t\r'
    number_form = re.compile(rb'[0-9]+|0x[0-9a-fA-F]+')
    packet_order, word_order = (5, 6), (8, 2, 3, 6)

    def __init__(self):
        self.read = {}

    def number(self, token):
        if not self.number_form.fullmatch(token):
            return None
        n = int(token[2:], 16) if token[1:2] in (b'x', b'X') else int(token)
        return self.bounded(n)

    def bounded(self, n):
        return n if n < 2**64 else None

    def held(self, line):
        return line.split(b'#')[0]

    def said(self, line):
        """What a line says: nothing, 102, or its kind and numbers."""
        if line not in self.read:
            self.read[line] = self.parsed(self.held(line))
        return self.read[line]

    def parsed(self, held):
        if len(held) > self.most_line:
            return 102
        tokens = self.tokens(held)
        if not tokens:
            return None
        name = tokens[0].decode('latin1')
        numbers = self.counted(name, [self.number(t) for t in tokens[1:]])
        return 102 if len(numbers) != NUMBERS.get(name) or None in numbers else (name, numbers)

    def tokens(self, held):
        return [t for t in re.split(b'[' + self.blanks + b']', held) if t]

    def counted(self, name, numbers):
        return numbers

    def lines(self, text):
        """What stands behind the last newline is a line too."""
        return text.split(b'\n')

    def fits(self, name, numbers):
        if name == 'packet':
            return all(n <= top for n, (top, _) in zip(numbers, PACKET)) and numbers[6] != 1
        return all(n < 2**width for n, (_, width) in zip(numbers, WORDS[name][1])) and (name != 'data' or numbers[0] in DATA_IDS)

    def refusals(self, packets, words, name, fits):
        """Why an entry can't be added to packets and words, in any order."""
        if not fits:
            yield 5 if name == 'packet' else 8
        if name != 'packet' and not packets:
            yield 2
        if name != 'packet' and packets and len(packets[-1][1]) == self.most_words:
            yield 3
        if 16 + 24 * len(packets) + 10 * words + (24 if name == 'packet' else 10) > self.most_bytes:
            yield 6

    def word(self, name, numbers):
        ident, fields = WORDS[name]
        bits = ident << 72 if ident else 0
        for n, (low, _) in zip(numbers, fields):
            bits |= n << low
        return bits.to_bytes(10, 'little')

    def file(self, packets):
        words = b''.join(w for _, ws in packets for w in ws)
        heads = b''.join(b''.join(n.to_bytes(size, 'little') for n, (_, size) in zip(head, PACKET)) + len(ws).to_bytes(2, 'little') for head, ws in packets)
        header = b''.join(n.to_bytes(4, 'little') for n in (len(packets), len(words) // 10, 16, 16 + 24 * len(packets)))
        return self.whole(header, heads, words)

    def whole(self, header, heads, words):
        return header + heads + words

    def bad(self, found):
        """Of all bad lines, with their refusals, the one that counts."""
        return next(found, None)

    def text(self, text):
        packets = []

        def found():
            words = 0
            for at, line in enumerate(self.lines(text), self.first_line):
                said = self.said(line)
                if said is None:
                    continue
                if said == 102:
                    yield 102, at
                    continue
                name, numbers = said
                no = set(self.refusals(packets, words, name, self.fits(name, numbers)))
                if no:
                    yield next(n for n in (self.packet_order if name == 'packet' else self.word_order) if n in no), at
                elif name == 'packet':
                    packets.append((numbers, []))
                else:
                    packets[-1][1].append(self.word(name, numbers))
                    words += 1
        first = self.bad(found())
        return b'refused %d at line %d\n' % first if first else self.file(packets)


def mistake(name, **parts):
    return type(name, (Rules,), parts)


def a_is_9(rules, token):
    n = Rules.number(rules, token)
    return n if n is None or token[1:2] != b'x' else int(token[2:].lower().replace(b'a', b'9'), 16)


def last_of(found):
    every = list(found)
    return every[-1] if every else None


def count_before(rules, packets):
    """A packet's count stands in the packet before it."""
    data = Rules.file(rules, packets)
    if len(packets) < 2:
        return data
    counts = [len(ws).to_bytes(2, 'little') for _, ws in packets]
    counts = counts[1:] + counts[:1]
    return data[:16] + b''.join(data[16 + 24 * i:38 + 24 * i] + c for i, c in enumerate(counts)) + data[16 + 24 * len(packets):]


MISTAKES = [
    mistake('line_counted_from_0', first_line=0),
    mistake('a_line_of_513', most_line=513),
    mistake('no_line_of_512', most_line=511),
    mistake('long_line_cut', held=lambda s, line: line.split(b'#')[0][:512]),
    mistake('blanks_not_held', held=lambda s, line: line.split(b'#')[0].strip(b' \t\r')),
    mistake('comments_held', parsed=lambda s, held: 102 if len(held) > s.most_line else Rules.parsed(s, held.split(b'#')[0]), held=lambda s, line: line),
    mistake('cr_not_held', held=lambda s, line: line.split(b'#')[0].replace(b'\r', b'')),
    mistake('comment_behind_a_blank_alone', held=lambda s, line: re.split(b'(?:^|[ \t\r])#', line)[0]),
    mistake('cr_no_blank', blanks=b' \t'),
    mistake('tab_no_blank', blanks=b' \r'),
    mistake('form_feed_a_blank', blanks=b' \t\r\f\v'),
    mistake('nul_a_blank', blanks=b' \t\r\0'),
    mistake('cr_ends_a_line', lines=lambda s, text: re.split(b'\r\n|\n|\r', text)),
    mistake('last_line_lost', lines=lambda s, text: text.split(b'\n')[:-1]),
    mistake('capital_x', number_form=re.compile(rb'[0-9]+|0[xX][0-9a-fA-F]+')),
    mistake('capital_digits_alone', number_form=re.compile(rb'[0-9]+|0x[0-9A-F]+')),
    mistake('small_digits_alone', number_form=re.compile(rb'[0-9]+|0x[0-9a-f]+')),
    mistake('a_sign', number_form=re.compile(rb'\+?[0-9]+|0x[0-9a-fA-F]+')),
    mistake('no_leading_zeros', number_form=re.compile(rb'0|[1-9][0-9]*|0x[0-9a-fA-F]+')),
    mistake('nineteen_digits_at_most', number_form=re.compile(rb'[0-9]{1,19}|0x[0-9a-fA-F]{1,16}')),
    mistake('empty_hexadecimal_is_0', number=lambda s, token: 0 if token == b'0x' else Rules.number(s, token)),
    mistake('digits_wrap', bounded=lambda s, n: n % 2**64),
    mistake('hex_digit_a_is_9', number=a_is_9),
    mistake('capital_kinds', tokens=lambda s, held: [t.lower() for t in Rules.tokens(s, held)[:1]] + Rules.tokens(s, held)[1:]),
    mistake('eleven_numbers', tokens=lambda s, held: Rules.tokens(s, held)[:11]),
    mistake('missing_numbers_are_0', counted=lambda s, name, numbers: numbers + [0] * (NUMBERS.get(name, 0) - len(numbers))),
    mistake('more_numbers_unread', counted=lambda s, name, numbers: numbers[:NUMBERS.get(name)]),
    mistake('bad_line_skipped', bad=lambda s, found: next((n for n in found if n[0] != 102), None)),
    mistake('last_bad_line_counts', bad=lambda s, found: last_of(found)),
    mistake('a_packet_of_4097', most_words=4097),
    mistake('a_packet_of_4095', most_words=4095),
    mistake('a_file_of_60010', most_bytes=60010),
    mistake('no_file_of_60000', most_bytes=59999),
    mistake('6_before_5', packet_order=(6, 5)),
    mistake('2_before_8', word_order=(2, 8, 3, 6)),
    mistake('3_before_8', word_order=(3, 8, 2, 6)),
    mistake('6_before_3', word_order=(8, 2, 6, 3)),
    mistake('format_1', fits=lambda s, name, numbers: Rules.fits(s, name, numbers[:6] + [0] if name == 'packet' and numbers[6] < 3 else numbers)),
    mistake('any_data_id', fits=lambda s, name, numbers: Rules.fits(s, name, [0x20] + numbers[1:] if name == 'data' and numbers[0] < 256 else numbers)),
    mistake('word_counted_for_the_packet_before', file=count_before),
    mistake('words_in_front_of_packets', whole=lambda s, header, heads, words: header + words + heads),
]


# --- the texts ---

NAMES = list(NUMBERS)
HEAD = 'packet 0 7 16 100 0 0 2'
NOT_KINDS = ['tdq', 'packet0', 'ihw:', '0', 'ih', 'ihww', 'IHW', 'Ihw', 'wih', '-ihw', '\xef\xbb\xbfihw', 'ihw\0', 'ihw\v', '\fihw']
NOT_NUMBERS = ['+1', '-1', '0X10', '0x', '0X', 'x1', '0xg', '0xG', '0x1x', '00x1', '0x0x1', '1a', 'a', '1.0', '1,0', '1_0', '1e3', '0b1', '1;', '(1)', '0x-1',
               '\xb2', '\xff', '1\xa01', '1\0', '\0', '1\v', '1\f', '\x7f', '1\x1a', "'1'", '/', ':', '@', '`', '0x/', '0x:', '0x@', '0x`', '0x 1', '1 0x', '']
TOO_LARGE = [2**64, 2**64 + 1, 2**64 + 9, 2**65, 10 * 2**64 + 1, 16 * 2**64 + 1, 10**20, 2 * 10**19, 2**80 + 5, 16**60 + 1]
NUMBER_FORMS = ['%d', '%d', '0x%x', '0x%X', '000%d', '0x00%x', '0x' + '0' * 20 + '%x', '0' * 30 + '%d']
# 16 + 24 packets + 10 words, with so many in the last packet: 60,000; 59,994; 59,992; 59,998; and a packet of 4,096
SHAPES = [(6, 5984, 984), (6, 5984, 4096), (6, 5984, 0), (2, 5993, 4096), (2, 5993, 2000), (2499, 0, 0), (2498, 3, 3), (1, 4096, 4096), (3, 5990, 1)]


def outside(name, at):
    """Numbers out of the range of a kind's field, the smallest first."""
    if name == 'packet':
        return [1, 3, 4, 256, 258, 2**64 - 2] if at == 6 else [PACKET[at][0] + 1, 2 * PACKET[at][0] + 2, 2**64 - 1]
    if name == 'data' and at == 0:
        return [0x1F, 0x29, 0x3F, 0x47, 0x4F, 0x57, 0x5F, 0, 0xE0, 0xFF, 0x120, 2**32 + 0x20]
    return [2**WORDS[name][1][at][1], 2**WORDS[name][1][at][1] + 1, 2**64 - 1]


def fields(r, name):
    """Numbers that a kind may have."""
    tops = [top for top, _ in PACKET] if name == 'packet' else [2**width - 1 for _, width in WORDS[name][1]]
    numbers = [r.choice([0, 1, top - 1, top, r.randint(0, top)]) for top in tops]
    if name in ('packet', 'data'):
        at = 6 if name == 'packet' else 0
        numbers[at] = r.choice([0, 2] if name == 'packet' else DATA_IDS)
    return numbers


def filled(packets, words, last):
    """Lines of so many packets and words, of which the last packet has so many."""
    counts = [min(4096, max(0, words - last - 4096 * i)) for i in range(packets - 1)] + [last]
    return [text for n in counts for text in ['packet 0 0 0 0 0 0 0'] + ['ihw 1'] * n]


def listed():
    """Every single fault, and what is no fault, behind a packet or before it."""
    for text in [f'{name} 1' for name in NOT_KINDS] + [f'ihw {token}' for token in NOT_NUMBERS]:
        yield [HEAD, text]
    for n in [0, 1, 10, 175, 2**28 - 1] + TOO_LARGE:
        for form in NUMBER_FORMS[1:]:
            yield [HEAD, 'ihw ' + form % n]
    for name in NAMES:
        numbers = fields(random.Random(name), name)
        yield [HEAD, ' '.join(map(str, [name] + numbers[1:]))]
        yield [HEAD, ' '.join(map(str, [name] + numbers + [0]))]
        yield [HEAD, ' '.join(map(str, [name] + numbers + [0] * (11 - len(numbers))))]
        for at in range(len(numbers)):
            for n in outside(name, at):
                wrong = ' '.join(map(str, [name] + numbers[:at] + [n] + numbers[at + 1:]))
                yield [HEAD, wrong]
            yield [wrong]  # a word's 8 comes before 2
            yield [wrong + ' 1']
        yield [' '.join(map(str, [name] + numbers))]
    for n in (511, 512, 513, 1000):
        for text in ('', 'ihw 1', 'ihw 0x' + '0' * (n - 7) + '1'):
            for padded in (text.ljust(n), text.rjust(n, '\t'), text.ljust(n - 1) + '\r'):
                yield [HEAD, padded]
                yield [HEAD, padded + '#', padded.replace(' ', '#', 1)]
    for more in (['ihw 1'], ['packet 0 0 0 0 0 0 0'], ['ihw 0x10000000'], ['packet 0 0 0 0 0 0 1'], ['ihw'], ['# packet', '', 'ihw 1'], []):
        for shape in SHAPES if more[:1] in (['ihw 1'], ['packet 0 0 0 0 0 0 0']) else SHAPES[:4]:
            yield filled(*shape) + more


def blank(r, least=1):
    return ''.join(r.choice(' \t\r' if r.random() < .2 else ' ') for _ in range(r.randint(least, least + r.choice([0, 0, 1, 3]))))


def line(r, name, numbers=None):
    words = [r.choice(NUMBER_FORMS) % n for n in (fields(r, name) if numbers is None else numbers)]
    text = blank(r, 0) + name + ''.join(blank(r) + w for w in words) + blank(r, 0)
    return text + r.choice(['', '', '', '#', ' # a comment', '#\tpacket 1 \xff\0 #', '# ' + 'x' * r.choice([500, 600, 2000])])


def run(r):
    """Lines that are not refused."""
    lines = []
    for _ in range(r.randint(1, 4)):
        lines.append(line(r, 'packet'))
        lines += [line(r, r.choice(NAMES[1:])) for _ in range(r.randint(0, 5))]
    return lines


def bad(r):
    """A line that is refused, wherever it stands."""
    name = r.choice(NAMES)
    numbers = fields(r, name)
    at = r.randrange(len(numbers))
    if r.random() < .5:
        return line(r, name, numbers[:at] + [r.choice(outside(name, at))] + numbers[at + 1:])
    numbers[at] = r.choice(NOT_NUMBERS + [r.choice(NUMBER_FORMS) % n for n in TOO_LARGE])
    return blank(r, 0) + name + ''.join(blank(r) + str(n) for n in numbers)


def joined(r, lines):
    """Between the lines nothing or comments may stand, and the last one may have no end."""
    end = r.choice(['\n', '\n', '\r\n'])
    out = []
    for text in lines:
        out += [r.choice(['', ' \t', '# packet', '\r']) for _ in range(r.choice([0, 0, 0, 1, 2]))] + [text]
    return (end.join(out) + r.choice([end, end, ''])).encode('latin1')


def drawn(r, kind):
    """A text of its kind."""
    lines = run(r)
    if kind == 'bad lines':
        for _ in range(r.choice([1, 1, 2, 3])):
            lines.insert(r.randint(0, len(lines)), bad(r))
    elif kind == 'no packet':
        del lines[0]
    text = joined(r, lines)
    if kind == 'changed':
        for _ in range(r.randint(1, 4)):
            at = r.randrange(len(text) + 1)
            text = text[:at] + r.choice([b'', b'\n', b'\r', b'#', b' ', b'0', b'x', b'\0', r.randbytes(1)]) + text[at + r.choice([0, 1]):]
    elif kind == 'lines split or joined':
        at = r.choice([i for i, c in enumerate(text) if c in b' \n\t\r'])
        text = text[:at] + (b' ' if text[at:at + 1] == b'\n' else b'\n') + text[at + 1:]
    elif kind == 'characters':
        text = bytes(r.choice(b'packetihwdn0123456789xXaF#\n\r\t  -+') for _ in range(r.randint(0, 60)))
    elif kind == 'bytes':
        text = r.choice([b'', b'\n', b'\r\n', b'\r', b'#', r.randbytes(r.choice([1, 10, 1000, 100000])), b' ' * r.choice([512, 513, 10**6]),
                         b'#' + b'x' * 10**6, b'a' * 10**6, b'\n' * 300 + b'ihw 1', text * 30])
    return text


KINDS = ['a run', 'bad lines', 'changed', 'lines split or joined', 'a run', 'bad lines', 'no packet', 'characters', 'bytes']
ANSWERS = ['a file'] + [f'refused {n}' for n in (102, 8, 5, 2, 3, 6)]


def texts(number, seed):
    """Each with what it is."""
    for name in sorted(glob.glob(os.path.join(TOP, 'examples', '*.stave'))):
        with open(name, 'rb') as f:
            yield os.path.basename(name), f.read()
    for lines in listed():
        yield repr(lines[-1][:40]), '\n'.join(lines + ['']).encode('latin1')
    for i in range(number):
        kind = KINDS[i % len(KINDS)]
        yield kind, drawn(random.Random(f'{seed} {i}'), kind)


def printed(command, text, pieces):
    """What is printed of a text: one that is read as it comes, or, by a pipe that keeps them apart, in pieces."""
    if not pieces:
        done = subprocess.run(command, input=text, capture_output=True, timeout=120)
        return done.stdout if done.returncode == 0 and not done.stderr else b'%d: %a %a' % (done.returncode, done.stdout, done.stderr)
    theirs, ours = os.pipe2(os.O_CLOEXEC | os.O_DIRECT)
    program = subprocess.Popen(command, stdin=theirs, stdout=subprocess.PIPE, stderr=subprocess.PIPE)
    os.close(theirs)
    try:
        at = 0
        for n in pieces:
            os.write(ours, text[at:at + n])
            at += n
    except BrokenPipeError:
        pass  # it reads no further than to a bad line
    os.close(ours)
    out, err = program.communicate(timeout=120)
    return out if program.returncode == 0 and not err else b'%d: %a %a' % (program.returncode, out, err)


def cut(r, text):
    """The lengths of its pieces, or none: then it comes as one."""
    if len(text) > 5000 or r.random() < .7:
        return []
    out, left, most = [], len(text), r.choice([1, 3, 40])  # a piece that is longer than what is read at once would lose its rest
    while left > 0:
        out.append(min(r.randint(1, most), left))
        left -= out[-1]
    return out


def option(options, name, other):
    return int(options[options.index(name) + 1]) if name in options else other


def main():
    at = sys.argv.index('--')
    options, command = sys.argv[1:at], sys.argv[at + 1:]
    number, seed = option(options, '--texts', 400), option(options, '--seed', 25)
    every = list(texts(number, seed))
    pieces = [cut(random.Random(f'{seed} pieces {i}'), text) for i, (_, text) in enumerate(every)]
    with concurrent.futures.ThreadPoolExecutor(2) as pool:
        outputs = list(pool.map(lambda t, p: printed(command, t[1], p), every, pieces))
    rules, wrong = Rules(), 0
    for i, ((kind, text), output) in enumerate(zip(every, outputs)):
        must = rules.text(text)
        if output != must:
            wrong += 1
            differ = f'printed {output[:60]}, {len(output)} bytes; must be {must[:60]}, {len(must)} bytes'
            print(f'texts: text {i} of seed {seed} ({kind}, {len(text)} bytes): {differ}')
    seen = [re.sub(' at .*\n', '', o.decode()) if o.startswith(b'refused') else 'a file' for o in outputs]
    missing = [a for a in ANSWERS if a not in seen]
    unnoticed = [m.__name__ for m in MISTAKES if every_same(m(), every, outputs)]
    for answer in missing:
        print(f'texts: no text gave {answer}')
    for name in unnoticed:
        print(f'texts: no text notices the mistake {name}')
    told = ', '.join(f'{seen.count(a)} {a}' for a in ANSWERS)
    print(f'texts: {len(every)} texts, {sum(map(bool, pieces))} of them in pieces: {told}; {wrong} not as the rules say; '
          f'{len(MISTAKES) - len(unnoticed)} of {len(MISTAKES)} mistakes noticed')
    sys.exit(1 if wrong or missing or unnoticed else 0)


def every_same(rules, every, outputs):
    return all(rules.text(text) == output for (_, text), output in zip(every, outputs))


main()
