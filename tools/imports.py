#!/usr/bin/env python3
"""imports.py: no file of crates/ brings in a name that it does not use. Prints each that does, and ends with exit status 1.

    tools/imports.py          tells
    tools/imports.py --fix    takes them out
"""
import glob
import os
import re
import sys

TOP = os.path.dirname(os.path.dirname(os.path.abspath(__file__)))

GROUP = re.compile(r'^(\s*(?:ghost )?use [^{]*(?:\.|::))\{(.*)\}(;?)$')
SPLIT = re.compile(r'^( *(?:ghost )?use [^{;\n]*\{)\n([^}]*?),?\n *(\};?)$', re.M)
ALIAS = re.compile(r'^\s*(?:ghost )?use \S+ as (\w+);?$')
ITEM = re.compile(r'^use (?:\w+::)+(\w+);$')
PART = r"[\w\-']"


def members():
    """the traits of crates/, each with its methods and constants: a trait is brought in for one of them"""
    found = {}
    for path in glob.glob(os.path.join(TOP, 'crates', '*', 'src', '*.rt')):
        with open(path, encoding='utf8') as f:
            for trait, body in re.findall(r'^pub trait (\w+) \{\n(.*?)^\}', f.read(), re.M | re.S):
                found[trait] = re.findall(r'^    (?:fn|const) (\w+)', body, re.M)
    return found


MEMBERS = members()


def used(name, body):
    """whether a name stands in the body: an operator by each of its parts, a trait by itself or by one of its members"""
    if any(re.search(rf'\.\s*{m}\(|::{m}\b', body) for m in MEMBERS.get(name, ())):
        return True
    parts = [p for p in name.split('◌') if p] if '◌' in name else [name]
    return all(re.search(rf'(?<!{PART}){re.escape(p)}(?!{PART})', body) for p in parts)


def without_unused(text):
    """the text without what it does not use, and the names that are gone; a group over several lines counts as one line"""
    text = SPLIT.sub(lambda m: m.group(1) + ' '.join(m.group(2).split()) + m.group(3), text)
    lines = text.split('\n')
    code = (re.sub(r'(--|//) .*$', '', line) for line in lines if not re.match(r'^\s*(pub )?(ghost )?use ', line))
    body = '\n'.join(code)
    kept, gone = [], []
    for line in lines:
        group, one = GROUP.match(line), ALIAS.match(line) or ITEM.match(line)
        if group:
            names = group.group(2).split(', ')
            stay = [n for n in names if used(n.split(' as ')[-1], body)]
            gone += [n for n in names if n not in stay]
            if stay:
                kept.append(f'{group.group(1)}{{{", ".join(stay)}}}{group.group(3)}')
        elif one and not used(one.group(1), body):
            gone.append(one.group(1))
        else:
            kept.append(line)
    return '\n'.join(kept), gone


def main():
    fix = sys.argv[1:] == ['--fix']
    if sys.argv[1:] and not fix:
        sys.exit('usage: imports.py [--fix]')
    crates = os.path.join(TOP, 'crates')
    files = unused = 0
    for folder, _, names in sorted(os.walk(crates)):
        if os.path.relpath(folder, crates).split(os.sep)[1:2] == ['out']:
            continue  # made by rt
        for name in sorted(names):
            if not name.endswith(('.antt', '.rt')):
                continue
            full = os.path.join(folder, name)
            path = os.path.relpath(full, crates)
            with open(full, encoding='utf8') as f:
                text = f.read()
            new, gone = without_unused(text)
            files += 1
            unused += len(gone)
            if gone and fix:
                with open(full, 'w', encoding='utf8') as f:
                    f.write(new)
            elif gone:
                print(f'imports: {path} does not use {", ".join(gone)}')
    if unused and not fix:
        sys.exit(1)
    print(f'imports: {files} files, ' + (f'{unused} names taken out' if fix else 'each uses what it brings in'))


main()
