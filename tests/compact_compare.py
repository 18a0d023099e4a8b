#!/usr/bin/env python3
"""Compares compact files with those of ICU's genrb, byte for byte.

    compact_compare.py OURS [COUNT [SEED]]      of random texts in ICU's form, 1,000 if left out
    compact_compare.py OURS --texts FOLDER ..   of all texts `*.txt` in these folders

OURS is a command as `answers.py` says, which answers a text by the hex digits of its compact file,
or by `err`: the program of `compact.rattle`. The keys of random texts often end with one
another, and many of their strings are empty; none is long enough for a marker. Binary forms of
collation rules are left out (`genrb -C`). Texts that one of the two refuses are counted. Files
that differ are printed, and end the run with status 1.
"""
import argparse
import pathlib
import random
import subprocess
import sys
import tempfile

from answers import answers

AT_ONCE = 200
LETTERS = ['a', 'b', 'ab', 'ba', 'abc', 'x']


def key(rng):
    return ''.join(rng.choice(LETTERS) for _ in range(rng.choice([1, 1, 2, 2, 3, 4, 8])))


def string(rng):
    return '"%s"' % ''.join(rng.choice(LETTERS) for _ in range(rng.choice([0, 0, 1, 2, 3])))


def members(rng, depth):
    return ','.join(value(rng, depth) for _ in range(rng.choice([1, 1, 2, 3, 5])))


def table(rng, depth):
    keys = sorted({key(rng) for _ in range(rng.choice([1, 2, 3, 5, 9]))})
    rng.shuffle(keys)
    return '{%s}' % ''.join(k + value(rng, depth) for k in keys)


def value(rng, depth):
    kind = rng.randrange(9 if depth else 6)
    if kind <= 2:
        return ':string{%s}' % string(rng)
    if kind == 3:
        return ':int{%d}' % rng.choice([0, 1, 7, 268435455])
    if kind == 4:
        numbers = [str(rng.randrange(99)) for _ in range(rng.randrange(1, 4))]
        return ':intvector{%s}' % ','.join(numbers)
    if kind == 5:
        return ':array{%s}' % ','.join(string(rng) for _ in range(rng.choice([1, 2, 3, 4])))
    if kind == 6:
        return ':array{%s}' % members(rng, depth - 1)
    return ':table%s' % table(rng, depth - 1)


def by_genrb(folder, names):
    """The bytes of each text's file, None where there is none."""
    with tempfile.TemporaryDirectory() as out:
        for at in range(0, len(names), AT_ONCE):
            subprocess.run(['genrb', '-q', '-C', '-s', folder, '-d', out, *names[at:at + AT_ONCE]],
                           capture_output=True, check=False)
        for name in names:
            file = pathlib.Path(out, name).with_suffix('.res')
            yield file.read_bytes() if file.exists() else None


def text_of(folder, name):
    """A text's bytes, none where it is no UTF-8."""
    data = pathlib.Path(folder, name).read_bytes().removeprefix(b'\xef\xbb\xbf')
    try:
        data.decode()
    except UnicodeDecodeError:
        return b''
    return data


def compared(ours, folder, names):
    """How many files are equal, differ, or aren't written by one of the two."""
    counts = [0, 0, 0]
    said = answers(ours, [text_of(folder, name) for name in names])
    for name, mine, theirs in zip(names, said, by_genrb(folder, names)):
        if theirs is None or mine == 'err':
            counts[2] += 1
        elif mine == theirs.hex():
            counts[0] += 1
        else:
            counts[1] += 1
            print('differs: %s/%s' % (folder, name))
    return counts


def random_ones(ours, count, rng):
    total = [0, 0, 0]
    while count > 0:
        with tempfile.TemporaryDirectory() as folder:
            names = ['b%d.txt' % n for n in range(min(count, AT_ONCE))]
            texts = {name: name[:-4] + table(rng, 3) for name in names}
            for name, text in texts.items():
                pathlib.Path(folder, name).write_text(text)
            some = compared(ours, folder, names)
        total = [a + b for a, b in zip(total, some)]
        count -= len(names)
        if some[1]:
            break
    return total


def main():
    words = argparse.ArgumentParser(usage=__doc__)
    words.add_argument('ours', metavar='OURS')
    words.add_argument('count', metavar='COUNT', type=int, nargs='?', default=1000)
    words.add_argument('seed', metavar='SEED', type=int, nargs='?', default=1)
    words.add_argument('--texts', metavar='FOLDER', nargs='+')
    given = words.parse_args()
    if given.texts:
        total = [0, 0, 0]
        for folder in given.texts:
            names = sorted(path.name for path in pathlib.Path(folder).glob('*.txt'))
            total = [a + b for a, b in zip(total, compared(given.ours, folder, names))]
    else:
        total = random_ones(given.ours, given.count, random.Random(given.seed))
    print('%d equal, %d differ, %d not written by one of the two' % tuple(total))
    sys.exit(1 if total[1] else 0)


if __name__ == '__main__':
    main()
