#!/usr/bin/env python3
"""Compiles random texts, prints the files as texts again, and compiles those.

    dump_compare.py RESB [COUNT [SEED]]

RESB is the program `resb`. The two files of a text have to be equal byte for byte, since the texts
have each table's keys in the order of their bytes, once each, and so does what is printed. The
texts of the rows, and one random text in four, have them in any order; there the file of what is
printed and what is printed of that have to stay as they are. The first difference is printed and
ends the run with status 1.
"""
import pathlib
import random
import subprocess
import sys
import tempfile

from rows import rows_of
from write_compare import string, strings

KEYS = ['k', 'l', 'key', 'ey', 'a', 'zz', '"é"', '"a b"', '""', 'K', '0', '"{"', '"/*"', '-']
BATCH = 500


def key_bytes(key):
    return key.strip('"').encode()


def entries(rng, known, depth, is_sorted):
    keys = [rng.choice(KEYS) for _ in range(rng.choice([0, 1, 1, 2, 3, 5]))]
    if is_sorted:
        keys = sorted(set(keys), key=key_bytes)
    return ''.join(key + value(rng, known, depth, is_sorted) for key in keys)


def value(rng, known, depth, is_sorted):
    kind = rng.randrange(9 if depth else 5)
    if kind <= 1:
        return ':string{%s}' % string(rng, known)
    if kind == 2:
        return ':int{%d}' % rng.choice([0, 1, -1, 7, 268435455, 4294967295])
    if kind == 3:
        data = bytes(rng.randrange(256) for _ in range(rng.choice([0, 1, 2, 3, 4, 15, 16, 33])))
        return ':bin{"%s"}' % data.hex()
    if kind == 4:
        numbers = [rng.randrange(-5, 70000) for _ in range(rng.choice([0, 1, 2, 5]))]
        return ':intvector{%s}' % ','.join(map(str, numbers))
    if kind == 5:
        return ':array' + strings(rng, known)
    if kind == 6:
        members = [value(rng, known, depth - 1, is_sorted) for _ in range(rng.choice([0, 1, 2, 4]))]
        return ':array{%s}' % ' '.join(members)
    return ':table{%s}' % entries(rng, known, depth - 1, is_sorted)


def text(rng, is_sorted):
    flag = rng.choice(['', '', ':table(nofallback)'])
    return ('b%s{%s}' % (flag, entries(rng, [], 4, is_sorted))).encode()


def rows():
    """The texts of the rows that are bundles."""
    for said, _ in rows_of('texts.txt', mark=' => '):
        yield said.encode()


def compiled(program, folder, texts):
    """The files of texts, in a folder of their own."""
    folder.mkdir()
    names = []
    for number, said in enumerate(texts):
        names.append(str(folder / ('%d.txt' % number)))
        pathlib.Path(names[-1]).write_bytes(said)
    run = subprocess.run([program, 'compile', *names], stderr=subprocess.PIPE)
    if run.returncode != 0:
        sys.exit('not compiled:\n%s' % run.stderr.decode())
    return [pathlib.Path(name).with_suffix('.res') for name in names]


def printed(program, files):
    """What files are printed as."""
    shown = []
    for file in files:
        run = subprocess.run([program, 'dump', file], capture_output=True)
        if run.returncode != 0 or run.stderr:
            sys.exit('not printed: %r\n%s' % (file.read_bytes(), run.stderr.decode()))
        shown.append(run.stdout)
    return shown


def compare(program, texts, is_sorted):
    with tempfile.TemporaryDirectory() as name:
        folder = pathlib.Path(name)
        first = compiled(program, folder / 'first', texts)
        shown = printed(program, first)
        second = compiled(program, folder / 'second', shown)
        before, after = first, second
        if not is_sorted:
            again = printed(program, second)
            for said, one, other in zip(texts, shown, again):
                if one != other:
                    sys.exit('differ on %r:\n%r\n%r' % (said, one, other))
            before, after = second, compiled(program, folder / 'third', again)
        for said, one, other in zip(texts, before, after):
            if one.read_bytes() != other.read_bytes():
                sys.exit('differ on %r:\n%s\n%s' % (said, one.read_bytes(), other.read_bytes()))


def main():
    if len(sys.argv) < 2:
        sys.exit(__doc__)
    program = sys.argv[1]
    count = int(sys.argv[2]) if len(sys.argv) > 2 else 1000
    rng = random.Random(int(sys.argv[3]) if len(sys.argv) > 3 else 1)
    known = list(rows())
    compare(program, known, False)
    for start in range(0, count, BATCH):
        is_sorted = start // BATCH % 4 != 3
        texts = [text(rng, is_sorted) for _ in range(min(BATCH, count - start))]
        compare(program, texts, is_sorted)
    print('%d texts and %d of the rows: no difference' % (count, len(known)))


if __name__ == '__main__':
    if sys.argv[1:] == ['--help']:
        sys.exit(print(__doc__))
    main()
