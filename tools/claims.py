#!/usr/bin/env python3
"""claims.py: two claims of the docs, looked for in the tree. Each public function of a library has an `ensures` that determines its result and the final
content of what it is lent to change: an equation, or a record of specs/ with a uniqueness law in proofs/; docs/EXCEPTIONS.md names those that have none. A
function of a public trait is one, which each impl is held to; a conversion (From, TryFrom) has such a law in place of an `ensures`. And each number of
docs/CODES.md has a wrong program (a must-fail edit of src/) that names it. Exit status 1 where that is not so."""
import glob
import os
import re
import sys

TOP = os.path.dirname(os.path.dirname(os.path.abspath(__file__)))


def read(path):
    with open(path, encoding='utf8') as f:
        return f.read()


def functions(text):
    """The public functions of a source and those of its public traits: name, parameters, the type of its result or '', and its contract's `ensures`."""
    yield from told(text, r'^ *pub (?:extern "C" )?fn (\w+)(?:<[^>]*>)?\(')
    for trait in re.findall(r'^pub trait [^\n]*\{\n(.*?)^\}', text, re.M | re.S):
        yield from told(trait, r'^    fn (\w+)(?:<[^>]*>)?\(')


def told(text, begins):
    """Of the functions that begin so: up to the body, or to the semicolon of a trait's."""
    for m in re.finditer(begins, text, re.M):
        deep, at = 1, m.end()
        while deep:
            deep += {'(': 1, ')': -1}.get(text[at], 0)
            at += 1
        parameters, rest = text[m.end():at - 1], text[at:]
        head = rest[:re.search(r';$|^ *\{$|(?<!ensures)(?<!requires) \{$', rest, re.M).start()]
        ensures = [' '.join(e.split()) for e in re.findall(r'^ *ensures (?:\w+ )?\{ (.*?) \}$', head, re.S | re.M)]
        result = re.split(r'\b(?:requires|ensures|where)\b', head)[0].partition('->')[2].strip()
        yield m.group(1), parameters, result, ensures


def conversions(text):
    """The conversions of a source: the trait and the two types, and the law of what they give, or ''."""
    for name, body in re.findall(r'^impl(?:<[^\n]*?>)? ((?:Try)?From<[^\n]*) \{\n(.*?)^\}', text, re.M | re.S):
        law = re.search(r'^    ghost (?:try_)?from_gives = \{ (.*?) \};$', body, re.M | re.S)
        yield name, law.group(1) if law else ''


def is_settled(crate, law, laws):
    """Whether the law of a conversion determines what it gives, its last argument, in each of its cases."""
    if law.startswith('λ '):
        names, _, body = law[2:].partition('. ')
        cases = [(names, body)]
    else:
        cases = []
        for path in glob.glob(os.path.join(TOP, 'crates', crate, 'specs', '*.antt')):
            cases += re.findall(rf'^{re.escape(law)} ([^=:]*) = (.*(?:\n {{4}}.*)*)', read(path), re.M) if law else []

    def said(names, body):
        given = re.compile(rf"(?<![\w'.]){re.escape(re.findall(r'[a-z][a-z_0-9]*', names)[-1])}(?![\w'])")
        return any(given.search(part) and ('≡' in part or part.strip('( ').split(' ')[0] in laws) for part in body.split(' × '))

    return bool(cases) and all(said(*case) for case in cases)


def unique_laws():
    """The records of specs/ of which a law says that they determine what they are about (two of one, and then equations), with how many equations."""
    laws = ''
    for path in glob.glob(os.path.join(TOP, 'crates', '*', 'proofs', 'Unique.antt')):
        laws += read(path)
    found = {}
    for law in re.findall(r'^pub \S*unique : (.*(?:\n {4}.*)*)', laws, re.M):
        parts = law.split('→')
        for name in set(re.findall(r'\b([A-Z]\w*)\b', law)):
            if sum(p.strip().startswith(name + ' ') for p in parts[:-1]) == 2:
                found[name] = max(found.get(name, 0), parts[-1].count('≡'))
    return found


def determined(ensures, result, lent, laws):
    """Whether a contract determines the result, if there is one, and each lent slice: by equations, or by a record with a law for it."""
    subjects = ['result'] * bool(result) + [f'{x}.new' for x in lent]

    def settled(subject):
        for said in ensures:
            part = said.split(' × ')[0].strip('( ')
            if result != 'Result<(), Refusal>':  # the number of such a result tells which it is (refusals/proofs/Numbers.antt, `same_code`), and of no other
                part = part.replace('code result', '')
            head = part.split(' ')[0]
            if head in laws:
                if laws[head] >= len(subjects) and subject in said:
                    return True
            elif '≡' in part and re.search(rf"(?<!length )(?<![\w'.]){re.escape(subject)}(?![\w'])", part):
                return True
        return False

    return bool(ensures) and all(settled(s) for s in subjects)


def exceptions():
    """The functions that docs/EXCEPTIONS.md names as not determined, as crate::function."""
    said = re.search(r'^Result not determined: (.*?)\.\s', read(os.path.join(TOP, 'docs', 'EXCEPTIONS.md')), re.M | re.S)
    return {f'{crate}::{fn}' for fn, crate in re.findall(r'`(\w+)` of `(\w+)`', said.group(1))}


def contracts():
    laws = unique_laws()
    wrong, seen, excepted = [], 0, exceptions()
    for path in sorted(glob.glob(os.path.join(TOP, 'crates', '*', 'src', '*.rt'))):
        crate = path.split(os.sep)[-3]
        if os.path.exists(os.path.join(TOP, 'crates', crate, 'src', 'main.rt')):
            continue
        for fn, parameters, result, ensures in functions(read(path)):
            seen += 1
            lent = re.findall(r'(\w+): &mut', parameters) + ['self'] * ('&mut self' in parameters)
            is_determined = determined(ensures, result, lent, laws)
            is_excepted = f'{crate}::{fn}' in excepted
            excepted.discard(f'{crate}::{fn}')
            if is_determined == is_excepted:
                wrong.append(f'{os.path.relpath(path, TOP)}: what `{fn}` gives is {"" if is_determined else "not "}determined by its contract')
        for name, law in conversions(read(path)):
            seen += 1
            if not is_settled(crate, law, laws):
                wrong.append(f'{os.path.relpath(path, TOP)}: what `{name}` gives is not determined by its law')
    return wrong + [f'docs/EXCEPTIONS.md: no public function {name}' for name in sorted(excepted)], seen


def codes():
    """The numbers of docs/CODES.md that no wrong program names: a code by its number, a refusal as "refusal N"."""
    records, refusals = read(os.path.join(TOP, 'docs', 'CODES.md')).split('\n## Refusals\n')
    numbers = re.findall(r'^\| (\d+)(?: R)? \|', records, re.M) + ['refusal ' + n for n in re.findall(r'^\| (\d+) \|', refusals, re.M)]
    named = set()
    for path in glob.glob(os.path.join(TOP, 'crates', '*', 'must-fail', '**', '*.edit'), recursive=True):
        edit = read(path)
        if re.search(r'^file: src/', edit, re.M):
            said = edit[:re.search(r'^file: ', edit, re.M).start()]
            named |= set(re.findall(r'refusal \d+|\b\d{2,4}\b', os.path.basename(path).replace('_', ' ').lower() + ' ' + said.lower()))
    return [f'docs/CODES.md: no wrong program names {n}' for n in numbers if n not in named], len(numbers)


def main():
    wrong, seen = contracts()
    more, numbers = codes()
    for said in wrong + more:
        print(f'claims: {said}')
    if not seen or not numbers:
        print('claims: no function or no code was found')
        sys.exit(1)
    if not wrong and not more:
        but = f' but for {len(exceptions())} that docs/EXCEPTIONS.md names'
        print(f'claims: {seen} public functions, each determined by its contract{but}; {numbers} codes and refusals, each with a wrong program')
    sys.exit(1 if wrong or more else 0)


main()
