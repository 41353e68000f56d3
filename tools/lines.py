#!/usr/bin/env python3
"""lines.py: sources, definitions and proofs can be read without scrolling, and a fact is asked for at a place that has a name.

    tools/lines.py

No line below crates/ of an .rt or .antt file has more than 160 characters (but for `#[tactic(..)]`, which rt fmt lays out in one), and none has more than three
`.before` in a row, steps back along the code in a proof that walks it by hand. Prints each line that does, and ends with exit status 1.
"""
import os
import re
import sys

TOP = os.path.dirname(os.path.dirname(os.path.abspath(__file__)))
MOST_CHARACTERS = 160
MOST_STEPS = 3
BACK = re.compile(r'(?: ?\.before){%d}' % (MOST_STEPS + 1))


def main():
    if sys.argv[1:]:
        sys.exit('usage: lines.py')
    crates = os.path.join(TOP, 'crates')
    files = bad = 0
    for folder, _, names in sorted(os.walk(crates)):
        if os.path.relpath(folder, crates).split(os.sep)[1:2] == ['out']:
            continue  # made by rt
        for name in sorted(n for n in names if n.endswith(('.antt', '.rt'))):
            full = os.path.join(folder, name)
            files += 1
            with open(full, encoding='utf-8') as f:
                for number, line in enumerate(f, 1):
                    why = []
                    if len(line.rstrip('\n')) > MOST_CHARACTERS and not line.startswith('#[tactic('):
                        why.append(f'has more than {MOST_CHARACTERS} characters')
                    if BACK.search(line):
                        why.append(f'goes more than {MOST_STEPS} steps back')
                    if why:
                        bad += 1
                        print(f'lines: {os.path.relpath(full, TOP)}:{number} {" and ".join(why)}')
    if not files:
        sys.exit('lines: no file below crates/')
    print(f'lines: {files} files, {bad} lines too long or too far back')
    sys.exit(1 if bad else 0)


main()
