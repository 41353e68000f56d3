#!/usr/bin/env python3
"""module.py: an LLVM module that the kit made for x86-64, as text, made fit for another machine. Used by native-lib.sh.

    module.py TARGET BITS LEVEL < KIT.ll > OURS.ll

The kit's code is the same on every machine; what names x86-64 is the triple, the processor, how the stack is probed, how a struct is returned, and, where
BITS, the bits of C's size_t, is 32, the length behind a slice's pointer. At the levels -Oz and -Os the compiler looks for words in the module itself.
"""
import re
import sys

# an answer of two numbers, which goes back in two registers where a register holds one
PAIR, PAIR_BYTES = '{ i64, i64 }', 16

# a function of the module: what stands before its name, its name, its parameters, its attributes, its body
FUNCTION = re.compile(r'^define ([^\n]*?)@("[^"]*"|[\w.]+)\(([^\n]*)\) (#\d+) \{\n(.*?)^\}\n', re.M | re.S)


def fail(what):
    sys.exit('module.py: ' + what)


def split(text):
    """The parts of `a, b, c`, brackets kept whole."""
    parts, depth, part = [], 0, ''
    for ch in text:
        depth += (ch in '([<') - (ch in ')]>')
        if ch == ',' and depth == 0:
            parts.append(part.strip())
            part = ''
        else:
            part += ch
    return parts + [part.strip()] if part.strip() else parts


def functions(text):
    """The functions of the module: name, its line, its body."""
    for m in FUNCTION.finditer(text):
        yield m.group(2).strip('"'), m


def answer_size(body):
    """How many bytes a function writes through its first argument, the place of its answer."""
    sizes = set(re.findall(r'call void @llvm\.memmove[\w.]*\(ptr %a0, ptr %\w+, i64 (\d+), ', body))
    return int(sizes.pop()) if len(sizes) == 1 else None


def with_struct_results(text):
    """A struct that goes back through memory: x86-64 hands its address in and out as if it were a plain argument; elsewhere the address
    has a place of its own, which `sret` stands for."""
    sizes = {name: answer_size(m.group(5)) for name, m in functions(text)}

    def turned(m):
        called = re.search(r'^  call void @"([^"]*)"\(ptr %a0', m.group(5), re.M)
        if m.group(1).strip() != 'noundef ptr' or not m.group(3).startswith('ptr noundef %a0') or not called:
            return m.group(0)
        size = sizes.get(called.group(1))
        if size is None:
            fail('the size of the answer of %s is not found' % m.group(2))
        parameters = m.group(3).replace('ptr noundef %a0', 'ptr noundef sret([%d x i8]) align 8 %%a0' % size, 1)
        return m.group(0).replace('define noundef ptr', 'define void', 1).replace('(' + m.group(3) + ')', '(' + parameters + ')', 1) \
            .replace('  ret ptr %a0\n', '  ret void\n')

    return FUNCTION.sub(turned, text)


def with_pairs_in_memory(text):
    """A pair of 64-bit numbers goes back in two registers of 64 bits; where registers have 32, it goes back through memory."""

    def turned(m):
        if m.group(1).strip() != PAIR:
            return m.group(0)
        given = re.search(r'^  ret %s (%%\w+)\n' % re.escape(PAIR), m.group(5), re.M)
        if not given:
            fail('the answer of %s is not found' % m.group(2))
        answer = 'ptr noundef sret([%d x i8]) align 8 %%answer' % PAIR_BYTES
        parameters = answer + (', ' + m.group(3) if m.group(3) else '')
        return m.group(0).replace('define ' + PAIR, 'define void', 1).replace('(' + m.group(3) + ')', '(' + parameters + ')', 1) \
            .replace(given.group(0), '  store %s %s, ptr %%answer, align 8\n  ret void\n' % (PAIR, given.group(1)), 1)

    return FUNCTION.sub(turned, text)


def with_narrow_lengths(text):
    """Lengths of 32 bits at the C entry points, each made 64 bits wide at once. An entry point is not internal and has no path in its name;
    the number behind a pointer is that slice's length."""

    def narrowed(m):
        if 'internal' in m.group(1).split() or m.group(2).startswith('"'):
            return m.group(0)
        parameters, widened = split(m.group(3)), []
        for k in range(1, len(parameters)):
            length = re.fullmatch(r'i64 noundef (%\w+)', parameters[k])
            if length and parameters[k - 1].startswith('ptr ') and 'sret' not in parameters[k - 1]:
                parameters[k] = 'i32 noundef %s.c' % length.group(1)
                widened.append('  %s = zext i32 %s.c to i64\n' % (length.group(1), length.group(1)))
        return m.group(0).replace('(' + m.group(3) + ')', '(' + ', '.join(parameters) + ')', 1).replace('start:\n', 'start:\n' + ''.join(widened), 1)

    return FUNCTION.sub(narrowed, text)


def with_size(text, words):
    """The module whose functions are to be short."""
    groups = {m.group(4) for _, m in functions(text)}
    return re.sub(r'^attributes (#\d+) = \{', lambda m: m.group(0) + words if m.group(1) in groups else m.group(0), text, flags=re.M)


def main():
    if len(sys.argv) != 4:
        fail('usage: module.py TARGET BITS LEVEL < KIT.ll > OURS.ll')
    (target, bits, level), text = sys.argv[1:4], sys.stdin.read()
    text = with_size(text, {'-Oz': ' minsize optsize', '-Os': ' optsize'}.get(level, ''))
    if not target.startswith('x86_64'):
        text = with_struct_results(text)
        if bits == '32':
            text = with_narrow_lengths(with_pairs_in_memory(text))
        text = re.sub(r'^target datalayout.*\n', '', text, flags=re.M)
        text = re.sub(r'^target triple = .*', 'target triple = "%s"' % target, text, flags=re.M)
        text = re.sub(r' "(target-cpu|tune-cpu|target-features|probe-stack|stack-probe-size)"="[^"]*"', '', text)
    sys.stdout.write(text)


if __name__ == '__main__':
    main()
