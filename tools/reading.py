#!/usr/bin/env python3
"""reading.py: every path and every name that docs/READING.md gives in backquotes stands in the tree, and docs/TRUST.md lists every file of specs/ with
its lines. Exit status 1 where that is not so.

    tools/reading.py          tells
    tools/reading.py --fix    writes the lines of each listed file, and of each table, into docs/TRUST.md first
"""
import os
import re
import sys

TOP = os.path.dirname(os.path.dirname(os.path.abspath(__file__)))
CRATES = os.path.join(TOP, 'crates')


def files(*ends):
    for d, folders, names in os.walk(CRATES):
        if os.path.dirname(d) == CRATES and 'out' in folders:
            folders.remove('out')  # made by rt
        for n in names:
            if n.endswith(ends):
                yield os.path.join(d, n)


def cited(path):
    """The files of specs/ that a file's `use` lines name."""
    with open(path, encoding='utf8') as f:
        return {f'{c}/specs/{m}.antt' for c, m in re.findall(r'use Rattle\.(\w+)\.specs\.(\w+)', f.read())}


TRUST = os.path.join(TOP, 'docs', 'TRUST.md')
TABLE = r'((?:^\| `[^`]*\.antt` \| \d+ \|.*\n)+)\| in all \| (\d+) \|'


def lengths():
    """The files of specs/, with how many lines each has."""
    there = {}
    for p in files('.antt'):
        if os.path.basename(os.path.dirname(p)) == 'specs' and os.path.basename(p) != 'Lib.antt':
            with open(p, encoding='utf8') as f:
                there[os.path.relpath(p, CRATES)] = len(f.read().splitlines())
    return there


def fix():
    there = lengths()

    def counted(m):
        rows = re.sub(r'^\| `([^`]*)` \| (\d+) \|', lambda r: f'| `{r.group(1)}` | {there.get(r.group(1), r.group(2))} |', m.group(1), flags=re.M)
        return f"{rows}| in all | {sum(int(n) for n in re.findall(r'^. `[^`]*` . ([0-9]+) ', rows, re.M))} |"

    with open(TRUST, encoding='utf8') as f:
        text = f.read()
    with open(TRUST, 'w', encoding='utf8') as f:
        f.write(re.sub(TABLE, counted, text, flags=re.M))


def specs():
    """What is wrong with the two tables of definitions in docs/TRUST.md: those to believe, and those that serve the code alone."""
    with open(TRUST, encoding='utf8') as f:
        text = f.read()
    there = lengths()
    tables = re.findall(TABLE, text, re.M)
    if len(tables) != 2:
        return ['there are not two tables of definitions']
    wrong, listed = [], {}
    for rows, total in tables:
        table = {p: int(n) for p, n in re.findall(r'^\| `([^`]*)` \| (\d+) \|', rows, re.M)}
        listed.update(table)
        if int(total) != sum(there.get(p, 0) for p in table):
            wrong.append(f'those of a table have {sum(there.get(p, 0) for p in table)} lines')
    wrong += [f'{p} has {n} lines' for p, n in sorted(there.items()) if listed.get(p) != n]
    wrong += [f'{p} is not there' for p in sorted(listed) if p not in there]
    serving = set(re.findall(r'^\| `([^`]*)`', tables[1][0], re.M))
    readers = [os.path.join(CRATES, p) for p in listed if p in there and p not in serving]
    exported = [p for p in files('.rt') if os.path.dirname(p) in [os.path.join(CRATES, c, 'src') for c in ('khandzorul', 'khandzorul_c')]]
    for p in readers + sorted(exported):
        wrong += [f'{os.path.relpath(p, CRATES)} cites {d}, which is said to serve the code alone' for d in sorted(cited(p) & serving)]
    return wrong


def main():
    if sys.argv[1:] == ['--fix']:
        fix()
    elif sys.argv[1:]:
        sys.exit('usage: reading.py [--fix]')
    with open(os.path.join(TOP, 'docs', 'READING.md'), encoding='utf8') as f:
        text = re.sub(r'```.*?```', '', f.read(), flags=re.S)
    code = ''
    for p in files('.rt', '.antt'):
        with open(p, encoding='utf8') as f:
            code += f.read() + '\n'
    words = set(re.findall(r"[^\s(){}\[\].,;:<>&`'\"]+", code))
    wrong_programs = {os.path.basename(p)[:-5] for p in files('.edit')}
    crates = set(os.listdir(CRATES))
    missing, seen = [], 0
    for name in re.findall(r'`([^`]+)`', text):
        seen += 1
        if '/' in name and not name.startswith('.'):
            path = name.split()[0]
            if not (os.path.exists(os.path.join(CRATES, path)) or os.path.exists(os.path.join(TOP, path))):
                missing.append(name)
            continue
        if name in wrong_programs or name in crates:
            continue
        parts = re.findall(r"[^\s(){}\[\].,;:<>&`'\"]+", name)
        if not all(p in words or p in crates for p in parts):
            missing.append(name)
    for name in missing:
        print(f'reading: `{name}` of docs/READING.md stands nowhere')
    wrong = specs()
    for said in wrong:
        print(f'reading: docs/TRUST.md: {said}')
    if not missing and not wrong:
        print(f'reading: {seen} paths and names of docs/READING.md, all there; docs/TRUST.md lists every file of specs/')
    sys.exit(1 if missing or wrong else 0)


main()
