#!/usr/bin/env python3
"""refused.py LOG [CRATE..]: where the prover refuses each wrong program, by what `rt ci` or `rt must-fail` said of it.

    tools/refused.py LOG              of every crate; prints those that are not refused as they must be
    tools/refused.py --all LOG ..     prints each

A wrong program is an edit crates/CRATE/must-fail/NAME.edit. Its line 'refused:' names the functions whose own proofs must fail, or the law that must where no
function's does; '-' and '_' are alike there. rt says of a refused edit where the first proof fails: that function, or law, must be one of these. One without
such a line does not count, nor one that is refused elsewhere, nor one of which rt says that it is refused only because a proof names what the edit took away
(what is to fail is a fact), or only by a limit of the prover. The last line is 'N refused, M not'. Exit status 1 where one was not.
"""
import glob
import os
import re
import sys

TOP = os.path.dirname(os.path.dirname(os.path.abspath(__file__)))
SAID = re.compile(r'^rt: must-fail (\w+)/([\w.-]+)\.edit: (.*)$')
PLACE = re.compile(r'(?:note: )?(?:\./)?((?:src|specs|proofs)/\S+?):(\d+):\d+: (?:error: )?(.*)$')
FN = re.compile(r'^( *)(?:pub(?:\([^)]*\))? )?(?:const )?(?:unsafe )?(?:extern "C" )?fn (\w+)')
IMPL = re.compile(r'^impl(?:<.*?>)? (?:.* for )?(\w+)')


def function_at(crate, path, line):
    """The function whose text has that line of a source: its path in the crate, by the file that it stands in. An edit moves no line."""
    with open(os.path.join(TOP, 'crates', crate, path), encoding='utf8') as f:
        lines = f.read().split('\n')
    module = [p for p in path[len('src/'):-len('.rt')].split('/') if p not in ('lib', 'main', 'mod')]
    while lines[line - 1].lstrip().startswith(('#[', '//')):
        line += 1  # an attribute above the function
    for at in range(min(line, len(lines)) - 1, -1, -1):
        fn = FN.match(lines[at])
        if not fn:
            continue
        if not fn.group(1):
            return '::'.join(module + [fn.group(2)])
        above = next((IMPL.match(lines[k]) for k in range(at, -1, -1) if lines[k].startswith('impl')), None)
        return '::'.join(module + ([above.group(1)] if above else []) + [fn.group(2)])
    return ''


def place(crate, said):
    """The function or the law that the first line of a refusal is about, or nothing."""
    m = PLACE.search(said)
    if not m:
        return ''
    path, line, why = m.group(1), int(m.group(2)), m.group(3)
    parts = path.split('/')
    if parts[0] == 'src':
        return function_at(crate, path, line)
    if parts[0] == 'proofs' and len(parts) > 2:
        return '::'.join(p.lstrip('+') for p in parts[1:-1])
    law = re.match(r'`([^`]*)`', why)
    return law.group(1) if law else ''


def judged(crate, edit, said):
    """What became of an edit: whether it counts, and the words for it."""
    if not said:
        return False, 'NOT TRIED: nothing is said of it'
    if not said.startswith('refused, as it must be'):
        return False, said
    with open(edit, encoding='utf8') as f:
        wanted = re.search(r'^(?:# ?)?refused: *(.*)$', f.read(), re.M)
    wanted = wanted.group(1).split() if wanted else []
    at = place(crate, said)
    if 'only by a limit of the prover' in said:
        return False, f'REFUSED BY A LIMIT of the prover, which is no verdict ({at or "nowhere"})'
    if said.startswith('refused, as it must be (only because a proof file names'):
        return False, f'REFUSED FOR ITS SHAPE: a proof names what it took away, and no fact fails ({at or "nowhere"})'
    if at.replace('-', '_') not in [w.replace('-', '_') for w in wanted]:
        return False, f"REFUSED ELSEWHERE: first at {at or 'nothing that has a name'}; its line 'refused:' says: {' '.join(wanted) or 'nothing'}"
    return True, f'refused at {at}, as it must be'


def main():
    words = sys.argv[1:]
    every = words[:1] == ['--all']
    words = words[1:] if every else words
    if not words:
        sys.exit('usage: refused.py [--all] LOG [CRATE..]')
    with open(words[0], encoding='utf8', errors='replace') as f:
        said = {(m.group(1), m.group(2)): m.group(3) for m in map(SAID.match, f.read().split('\n')) if m}
    refused = missed = 0
    for edit in sorted(glob.glob(os.path.join(TOP, 'crates', '*', 'must-fail', '*.edit'))):
        crate, name = edit.split(os.sep)[-3], os.path.basename(edit)[:-len('.edit')]
        if words[1:] and crate not in words[1:]:
            continue
        counts, why = judged(crate, edit, said.get((crate, name), ''))
        refused, missed = refused + counts, missed + (not counts)
        if every or not counts:
            print(f'must-fail {crate}/{name}: {why}')
    print(f'{refused} refused, {missed} not')
    sys.exit(1 if missed or not refused else 0)


main()
