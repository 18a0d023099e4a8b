#!/usr/bin/env python3
"""Times text to file: `resb_tool compile IN OUT` beside `genrb -q` on the same text, whole.

    write_kinds.py [KIND ..]              all six kinds or these, each at a size of its own
    write_kinds.py --growth [BYTES ..]    ours alone, 10 kB to 100 MB, with the growth per tenfold
    write_kinds.py --distinct PROGRAM [BYTES ..]
                                          the same of PROGRAM, which is distinct.c's
    write_kinds.py --make KIND BYTES      the text of a kind, on standard output

`--program PATH` in front of these times another program. The least of three times is printed, in
milliseconds of processor, with the most memory of the process in MB.
"""
import pathlib
import shutil
import sys
import tempfile

from timing import growth, known, least, make, program_of, sizes_of

TOP = pathlib.Path(__file__).resolve().parent.parent
PROGRAM = str(TOP / 'crates/resb_tool/out/resb_tool')


def tables(size):
    """Tables nested three levels; of ten strings three are an end of another."""
    parts, length, n = [], 0, 0
    while length < size:
        rows = []
        for i in range(10):
            word = 'text %d of group %d' % (i * 7919 + n, n * 31 + i)
            cells = ''.join(
                'c%d{"%s"}' % (j, word[-9:] if j % 10 < 3 else '%s, %d' % (word, j))
                for j in range(10))
            rows.append('row%d{%s}' % (i, cells))
        part = 'group%d{%s}' % (n, ''.join(rows))
        parts.append(part)
        length += len(part)
        n += 1
    return 'b{' + ''.join(parts) + '}'


def unsorted_keys(size):
    count = max(1, min(size // 16, 65535))
    step = next(s for s in range(count // 2 + 1, 2 * count + 2)
                if all(s % p or count % p for p in (2, 3, 5, 7, 17, 257)))
    return 'b{%s}' % ''.join('key%06d{v}' % (i * step % count) for i in range(count))


def vectors(size):
    parts, length, n = [], 0, 0
    while length < size:
        part = 't%d{%s}' % (
            n, ''.join('v%d:intvector{%d,%d,%d}' % (i, n, i, n + i) for i in range(100)))
        parts.append(part)
        length += len(part)
        n += 1
    return 'b{' + ''.join(parts) + '}'


def strings(size):
    """Short strings in one array, each second an end of the one before."""
    parts = []
    for i in range(max(1, size // 28)):
        word = 'w%dx' % (i * 7919)
        parts.append('"%s", "%s", ' % (word, word[1:]))
    return 'b{a{' + ''.join(parts) + '}}'


def one_letter(size):
    count = max(1, int((2 * size) ** 0.5))
    return 'b{a{%s}}' % ''.join('"%s", ' % ('a' * n) for n in range(1, count + 1))


def last_letters(size):
    count = max(1, min(size // 7, 20000))
    return 'b{a{%s}}' % ''.join('"%s", ' % chr(0x4e00 + n) for n in range(count))


KINDS = {
    'tables nested three levels': (tables, 12000000),
    'unsorted keys': (unsorted_keys, 1048560),
    'short vectors': (vectors, 20000000),
    'short strings, half ends of others': (strings, 14000000),
    'one letter, all lengths': (one_letter, 12500000),
    'distinct last letters': (last_letters, 140000),
}


def beside_genrb(program, work, kinds):
    for kind in kinds:
        size = KINDS[kind][1]
        length = make(__file__, kind, size, work / 'b.txt')
        ours, memory, _ = least([program, 'compile', 'b.txt', 'ours.res'], 3, folder=work)
        line = '%-36s %9d bytes %8.1f ms %6.0f MB' % (kind, length, ours, memory / 2 ** 20)
        if shutil.which('genrb'):
            theirs, their_memory, _ = least(['genrb', '-q', '-e', 'UTF-8', 'b.txt'], 3, folder=work)
            same = (work / 'ours.res').read_bytes() == (work / 'b.res').read_bytes()
            line += '; genrb %9.1f ms %6.0f MB, part %.3f, %s' % (
                theirs, their_memory / 2 ** 20, ours / theirs,
                'same file' if same else 'another file')
        print(line, flush=True)


def grows(command, work, sizes):
    for kind in KINDS:
        if kind in ('unsorted keys', 'distinct last letters'):
            continue
        before = None
        for size in sizes:
            length = make(__file__, kind, size, work / 'b.txt')
            took, memory, status = least(command, 3, given=work / 'b.txt', folder=work)
            print('%-36s %10d bytes %9.1f ms%s, %.1f bytes a byte%s' % (
                kind, length, took, growth(took, before), memory / length,
                '' if status == 0 else ', refused'), flush=True)
            before = took


def main():
    words = sys.argv[1:]
    if '--help' in words:
        print(__doc__)
        return
    if words[:1] == ['--make']:
        if len(words) != 3:
            sys.exit('--make takes a kind and a number of bytes')
        kind, size = known(words[1:2], KINDS, 'kind')[0], sizes_of(words[2:])[0]
        sys.stdout.buffer.write(KINDS[kind][0](size).encode())
        return
    program = PROGRAM
    if words[:1] == ['--program']:
        program, words = program_of(words[1:]), words[2:]
    all_sizes = [10 ** k for k in range(4, 9)]
    with tempfile.TemporaryDirectory() as name:
        work = pathlib.Path(name)
        if words[:1] == ['--growth']:
            grows([program, 'compile', 'b.txt', 'ours.res'], work, sizes_of(words[1:]) or all_sizes)
        elif words[:1] == ['--distinct']:
            grows([program_of(words[1:])], work, sizes_of(words[2:]) or all_sizes)
        else:
            beside_genrb(program, work, known(words, KINDS, 'kind') or list(KINDS))


if __name__ == '__main__':
    main()
