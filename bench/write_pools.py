#!/usr/bin/env python3
"""Writes the strings that `plan_times.rattle` plans, each in UTF-8 and closed by a byte 255.

    write_pools.py FOLDER

A file for each kind, which FOLDER gets. The same files each time.
"""
import random
import sys

LATIN = 'abcdefghijklmnopqrstuvwxyz'
CYRILLIC = [chr(c) for c in range(0x430, 0x450)]
HAN = [chr(c) for c in range(0x4e00, 0x4e00 + 3000)]


def words(rng, letters, least, most, count):
    return [''.join(rng.choice(letters) for _ in range(rng.randrange(least, most + 1)))
            for _ in range(count)]


def phrases(rng):
    known = words(rng, LATIN, 2, 8, 3000)
    return [' '.join(rng.choice(known) for _ in range(rng.randrange(1, 7)))
            for _ in range(100000)]


def ends(rng):
    """Short strings, half of them ends of others."""
    made = []
    for text in words(rng, LATIN, 6, 13, 500000):
        made += [text, text[rng.randrange(1, len(text)):]]
    return made


def shared_end(rng, letters, length):
    """5,000 strings that share an end of so many characters."""
    end = ''.join(rng.choice(letters) for _ in range(length))
    return ['%s%d%s' % (front, number, end)
            for number, front in enumerate(words(rng, 'abc', 12, 12, 5000))]


def chain(rng):
    """Strings of one letter, of all lengths to 5,000."""
    return rng.sample(['a' * length for length in range(1, 5001)], 5000)


def units(rng):
    return ['%d kilometres per hour' % rng.randrange(10 ** 6) for _ in range(100000)]


KINDS = {
    'words': lambda rng: words(rng, LATIN, 3, 12, 1000000),
    'ends': ends,
    'phrases': phrases,
    'cyrillic': lambda rng: words(rng, CYRILLIC, 3, 19, 100000),
    'han': lambda rng: words(rng, HAN, 1, 9, 100000),
    'units': units,
    'letters': lambda rng: words(rng, LATIN, 1, 1, 1000000),
    'shared_end': lambda rng: shared_end(rng, 'ab', 5000),
    'shared_han_end': lambda rng: shared_end(rng, HAN, 1700),
    'chain': chain,
}


def main():
    if len(sys.argv) != 2:
        sys.exit(__doc__)
    for kind, make in KINDS.items():
        with open('%s/%s' % (sys.argv[1], kind), 'wb') as out:
            for text in make(random.Random(2026)):
                out.write(text.encode() + b'\xff')


if __name__ == '__main__':
    if sys.argv[1:] == ['--help']:
        sys.exit(print(__doc__))
    main()
