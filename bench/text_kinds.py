#!/usr/bin/env python3
"""Times the reader of the text form alone, by texts that are refused at their last byte.

    text_kinds.py [--program PATH] [--alone] [KIND ..] [BYTES ..]    all kinds, 10 kB to 10 MB
    text_kinds.py --make KIND BYTES                                  such a text, on standard output

The built program, or that of PATH, is given each text on standard input. The least of five times
is printed, in milliseconds of processor, with the growth over the size before and the most memory
in bytes for each byte of the text; and that of `genrb -q` where it is installed and --alone isn't
said, on the same text without its last byte.
"""
import pathlib
import resource
import shutil
import sys
import tempfile

from timing import growth, least, make

TOP = pathlib.Path(__file__).resolve().parent.parent
PROGRAM = TOP / 'crates/resb_tool/out/resb_tool'
SIZES = [10 ** k for k in range(4, 8)]


def entries(said, size):
    """Tables of at most 100 entries in one another, up to so many bytes."""
    parts, length, n = [], 0, 0
    while length < size:
        part = 'k%d{' % n + ''.join(said(i) for i in range(100)) + '}'
        parts.append(part)
        length += len(part)
        n += 1
    while len(parts) > 100:
        parts = ['t%d{%s}' % (at, ''.join(parts[at:at + 100])) for at in range(0, len(parts), 100)]
    return 'b{' + ''.join(parts) + '}'


def deep(i, level=0):
    return 'k%d{v}' % i if level == 6 else 'k%d{%s}' % (i, deep(i, level + 1))


def unsorted_keys(size):
    count = max(1, min(size // 16, 100000))
    step = next(s for s in range(count // 2 + 1, 2 * count + 2)
                if all(s % p or count % p for p in (2, 3, 5, 7)))
    keys = ''.join('key%08d{v}' % (i * step % count) for i in range(count))
    return 'b{%s}' % keys


KINDS = {
    'long strings': lambda n: entries(lambda i: 's%d{"%s"}' % (i, 'x' * (n // 400 + 1)), n),
    'short keys, short strings': lambda n: entries(lambda i: 'k%d{"v%d"}' % (i, i), n),
    'tables of tables': lambda n: entries(deep, n),
    'arrays of short words': lambda n: entries(lambda i: 'a%d{%s}' % (i, 'x, yz, ' * 20), n),
    'integers': lambda n: entries(lambda i: 'i%d:int{%d}' % (i, i * 4099), n),
    'vectors': lambda n: entries(
        lambda i: 'v%d:intvector{%s}' % (i, ','.join(map(str, range(i, i + 20)))), n),
    'hex digits': lambda n: entries(lambda i: 'h%d:bin{"%s"}' % (i, '0fA7' * 500), n),
    'comments and blanks': lambda n: entries(
        lambda i: 'k%d /* %s */ { v } // c\n\t ' % (i, 'c' * 40), n),
    'unsorted keys': unsorted_keys,
    'nesting alone': lambda n: 'b{a%s%s}' % ('{' * (n // 2), '}' * (n // 2)),
}


def times(program, kind, sizes, work, alone):
    before = None
    for size in sizes:
        length = make(__file__, kind, size, work / 'given.txt')
        took, memory, _ = least([program], 5, work / 'given.txt')
        line = '%-26s %10d bytes %9.1f ms%s, %.1f bytes a byte' % (
            kind, length, took, growth(took, before), memory / length)
        before = took
        if not alone and shutil.which('genrb'):
            (work / 'b.txt').write_bytes((work / 'given.txt').read_bytes()[:-1])
            theirs, _, status = least(['genrb', '-q', '-e', 'UTF-8', 'b.txt'], 3, folder=work)
            line += ', genrb %.1f ms' % theirs if status == 0 else ', refused by genrb'
        print(line, flush=True)


def main():
    resource.setrlimit(resource.RLIMIT_CORE, (0, 0))
    words = sys.argv[1:]
    if words[:1] == ['--make']:
        sys.stdout.write(KINDS[words[1]](int(words[2])) + 'x')
        return
    program = words.pop(words.index('--program') + 1) if '--program' in words else str(PROGRAM)
    alone = '--alone' in words
    words = [word for word in words if word not in ('--program', '--alone')]
    sizes = [int(word) for word in words if word.isdigit()] or SIZES
    kinds = [word for word in words if not word.isdigit()] or list(KINDS)
    with tempfile.TemporaryDirectory() as work:
        for kind in kinds:
            times(program, kind, sizes, pathlib.Path(work), alone)


if sys.argv[1:] == ['--help']:
    sys.exit(print(__doc__))
main()
