"""smallest.py: the inputs of smallest/, what each side answers to them, and docs/DIFFERENCES.md, which shows them.

A file has calls, as lines for the drivers (README.md, "Lines"). Behind a call may stand how often it is made, `*N`, and a remark. The lines below a
call say what is answered to it:

    = we ANSWER           the library
    = release ANSWER      the Rust's release build
    = debug ANSWER        the Rust's debug build
    = rust ANSWER         both builds

Where nothing is said, all sides give one and the same answer. `PANIC @FILE` is a panic in that file of the Rust. S and R have no answer; P has
one only where the library refuses it, and then the Rust has none.
"""
import glob
import os
import re
import shutil
import subprocess

import model

HERE = os.path.dirname(os.path.abspath(__file__))
ROOT = os.path.dirname(os.path.dirname(HERE))
DOCUMENT = os.path.join(ROOT, 'docs', 'DIFFERENCES.md')
FIELDS = {'S': 4, 'P': 8, 'W': 2, 'R': 1, 'Y': 2, 'ACTIVE': 3, 'LANE': 4, 'CONTINUATION': 4, 'AFTER_PACKET_DONE': 4}
QUESTIONS = {'ACTIVE': 1, 'CONTINUATION': 2, 'AFTER_PACKET_DONE': 3, 'LANE': 4}  # single functions, by their numbers in single.rattle
SIDES = {'we': ['we'], 'release': ['release'], 'debug': ['debug'], 'rust': ['release', 'debug']}
EVERY = ['we', 'release', 'debug']


class Call:
    def __init__(self, line):
        words = line.split()
        n = FIELDS[words[0]] + (words[0] == 'S' and words[4:] in (['1'], ['2']))
        self.name, self.fields = words[0], words[:n]
        self.times = int(words[n][1:]) if words[n:] and words[n][0] == '*' else 1
        self.said = {}  # by side

    def line(self):
        return ' '.join(self.fields)

    def answers(self, side):
        """How many lines a side answers to it."""
        return 0 if self.name in 'SR' or self.name == 'P' and side not in self.said else self.times


class Input:
    def __init__(self, path):
        self.name = os.path.basename(path)
        self.number = self.name.split('-')[0]  # as DIFFERENCES.md names it: 1, 1b, ..
        with open(path) as f:
            self.text = f.read()
        self.calls = []
        for line in self.text.splitlines():
            if line.startswith('= '):
                _, side, answer = line.split(' ', 2)
                self.calls[-1].said.update((s, answer) for s in SIDES[side])
            else:
                self.calls.append(Call(line))
        self.single = self.calls[0].name in QUESTIONS

    def lines(self):
        return [call.line() for call in self.calls for _ in range(call.times)]


def read():
    """The inputs that go through the calls, and those of single functions."""
    inputs = [Input(path) for path in sorted(glob.glob(os.path.join(HERE, 'smallest', '*.txt')))]
    return [i for i in inputs if not i.single], [i for i in inputs if i.single]


def is_said(said, answer):
    if said.startswith('PANIC @'):
        return answer.startswith('PANIC ') and said[6:] + ':' in answer
    return answer == said


def check_answers(inputs, answers):
    """What is answered otherwise than an input says. `answers`: a file by side."""
    wrong = []
    for i in inputs:
        for call in i.calls:
            for _ in range(call.times):
                given = {side: file.readline().rstrip('\n') for side, file in answers.items() if call.answers(side)}
                if call.said:
                    bad = [side for side in given if not is_said(call.said[side], given[side])]
                else:
                    bad = list(given) if len(set(given.values())) > 1 else []
                wrong += ['%s: %s: %s: %s' % (i.name, call.line(), side, given[side] or 'no answer') for side in bad]
    return wrong


def check_model(i):
    """Does the model say of an input of a class what the input says?"""
    m, shown = model.Model(), set()
    for call in i.calls:
        f = call.fields
        if call.name == 'S':
            m.start(f[1] == '1', f[2] == '1', None if f[3] == '-' else int(f[3]), *map(int, f[4:]))
        elif call.name == 'P':
            m.packet(int(f[1]), int(f[5]), int(f[6]), int(f[7]))
        elif not m.apart:
            d = m.word(f[1])
            we, release = call.said.get('we'), call.said.get('release')
            if (d is None) != (we == release) or d is not None and not model.as_said(d, we, release):
                return False
            shown |= {d.kind} if d else set()
    return shown <= {model.NUMBERS[i.number[0]]}


def check_form(inputs):
    """What is amiss in the files, and between them and the document."""
    with open(DOCUMENT) as f:
        document = f.read()
    wrong = []
    for i in inputs:
        said = [call.said for call in i.calls if call.said]
        if any(set(call.said) != ({'we'} if call.name == 'P' else set(EVERY)) for call in i.calls if call.said):
            wrong.append('%s does not say what each side answers' % i.name)
        elif not any(len(set(s.values())) > 1 for s in said):
            wrong.append('%s shows no difference' % i.name)
        elif not i.single and i.number[0] in model.NUMBERS and not check_model(i):
            wrong.append('%s: the model says otherwise' % i.name)
        if '`%s`' % i.number not in document:
            wrong.append('%s is not named in docs/DIFFERENCES.md' % i.name)
    blocks = re.findall(r'(?:^    .*\n)+', document, re.M)
    files = {i.text for i in inputs}
    wrong += ['docs/DIFFERENCES.md shows what is no file of smallest/:\n' + b for b in blocks if re.sub('^    ', '', b, flags=re.M) not in files]
    return wrong


def question(call):
    """The bytes that single.rattle is asked with."""
    f = call.fields
    if call.name == 'ACTIVE':
        return bytes([1, int(f[1])]) + int(f[2]).to_bytes(20, 'little')
    if call.name == 'LANE':
        return bytes([4, int(f[2])]) + int(f[3]).to_bytes(10, 'little') + int(f[1]).to_bytes(10, 'little')
    return bytes([QUESTIONS[call.name], int(f[1])]) + bytes.fromhex(f[2]) + bytes.fromhex(f[3])


def run_ours(singles, folder):
    """Our side of single functions: single.rattle, over the crates as they are, interpreted and compiled. None: as said; else what is wrong."""
    work = os.path.join(folder, 'single')
    program = os.path.join(work, 'crates', 'single')
    os.makedirs(os.path.join(program, 'src'))
    for name in os.listdir(os.path.join(ROOT, 'crates')):
        for part in ('src', 'specs'):
            if os.path.isdir(os.path.join(ROOT, 'crates', name, part)):
                shutil.copytree(os.path.join(ROOT, 'crates', name, part), os.path.join(work, 'crates', name, part))
    with open(os.path.join(ROOT, 'crates.txt')) as f, open(os.path.join(work, 'crates.txt'), 'w') as out:
        out.write(f.read() + 'single: words records packet stored validators tdh_validator input\n')
    shutil.copy(os.path.join(HERE, 'single.rattle'), os.path.join(program, 'src', 'main.rt'))
    asked = b''.join(question(call) for i in singles for call in i.calls)
    said = ''.join(call.said['we'] + '\n' for i in singles for call in i.calls).encode()
    done = subprocess.run(['rt', 'try'], cwd=program, input=asked, stdout=subprocess.PIPE, stderr=subprocess.PIPE)
    return None if done.returncode == 0 and done.stdout == said else (done.stdout + done.stderr).decode(errors='replace')
