#!/usr/bin/env python3
"""Compares readers of files on random and damaged files: the whole trees, or the counts alone.

    read_compare.py OURS OTHER [COUNT [SEED [FILES]]]

OURS and OTHER are commands as `answers.py` says, which answer a file by `ok COUNT TREE`, by
`ok COUNT` where the count alone is asked for, or by `err MESSAGE`; a TREE is written as in
`text_compare.py`. `dump trees` and `dump counts` of `dump.rattle` are such commands. FILES has the
hex digits of a file in each line; these are damaged beside the small ones here. The first
difference is printed with the file's bytes, and ends the run with status 1.
"""
import random
import struct
import sys

from answers import answered

HEADER = bytes.fromhex('2000da2714000000000002005265734202000000010400000000000000000000')

SMALL = [
    [0x7FFFFFFF, 7, 8, 9, 9, 0, 0, 9, 0xAAAA0000],
    [0x60000001, 7, 8, 10, 10, 0, 0, 10, 0x00610000, 0xAAAA0000],
    [0x50000006, 7, 9, 15, 15, 2, 0, 15, 0x00630061, 0x00780000, 0x00790000, 0x7A,
     0x00200002, 0x00010022, 0xAAAA0003],
    [0x2000000C, 7, 9, 14, 14, 1, 0, 12, 0xAAAA0061, 0x00780000, 0x00020000, 0x00010000,
     0x00200001, 0x90000003],
    [0x2000000D, 7, 9, 17, 17, 2, 0, 10, 0x00760069, 0xAAAA0000, 2, 1, 0xFFFFFFFF, 0x00200002,
     0xAAAA0022, 0x7FFFFFFF, 0xE000000A],
    [0x2000000D, 7, 9, 15, 15, 1, 0, 10, 0xAAAA0064, 0xAAAA0000, 0xAAAAAAAA, 2, 0xAAAAFF00,
     0x00200001, 0x1000000B],
    [0x40000009, 7, 9, 12, 12, 1, 0, 9, 0xAAAA0061, 1, 32, 0x70000005],
    [0x80000009, 7, 8, 13, 13, 0, 0, 9, 0xAAAA0000, 3, 0x80000009, 0x70000001, 0x60000000],
    [0x90000006, 7, 8, 13, 13, 0, 0, 13, 0xDC030000, 0x00610000, 0x00000062, 0x00010002,
     0xAAAA0003],
]
TYPES = [0, 1, 2, 3, 4, 5, 6, 7, 8, 9, 10, 14]
UNITS = [0, 1, 2, 32, 34, 0x61, 0xD800, 0xDC00, 0xDC01, 0xDFEF, 0xDFFF]


def word(rng, size):
    """A word that often leads somewhere in so many: a descriptor, a small number, two units."""
    kind = rng.randrange(4)
    if kind == 0:
        return rng.choice(TYPES) << 28 | rng.randrange(size + 3)
    if kind == 1:
        return rng.randrange(2 * size + 10)
    if kind == 2:
        return rng.choice(UNITS) << 16 | rng.choice(UNITS)
    return rng.getrandbits(32)


def random_file(rng, known):
    """A known file with some words, bytes or its end changed, or a small one of random words."""
    head, words = rng.choice(known)
    words = list(words)
    if rng.randrange(4) == 0:
        words = words[:9] + [word(rng, 18) for _ in range(rng.randrange(1, 12))]
        words[0] = word(rng, 18)
        words[7] = rng.randrange(8, len(words) + 1)
    for _ in range(rng.randrange(4)):
        words[rng.randrange(len(words))] = word(rng, len(words))
    data = bytearray(head + b''.join(struct.pack('<I', w) for w in words))
    if rng.randrange(3) == 0:
        data[rng.randrange(len(data))] = rng.choice([0, 1, 0x7F, 0xFF, rng.randrange(256)])
    if rng.randrange(6) == 0:
        del data[rng.randrange(len(data) + 1):]
    return bytes(data)


def files_of(path):
    """The header and the words of each file."""
    with open(path) as lines:
        for line in lines:
            data = bytes.fromhex(line)
            yield data[:32], struct.unpack('<%dI' % (len(data) // 4 - 8), data[32:])


def main():
    if len(sys.argv) < 3:
        sys.exit(__doc__)
    count = int(sys.argv[3]) if len(sys.argv) > 3 else 1000
    rng = random.Random(int(sys.argv[4]) if len(sys.argv) > 4 else 1)
    small = [(HEADER, words) for words in SMALL]
    given = list(files_of(sys.argv[5])) if len(sys.argv) > 5 else small
    accepted = 0

    def make():
        return random_file(rng, rng.choice([small, given]))

    for data, mine, theirs in answered(sys.argv[1], sys.argv[2], make, count):
        if mine != theirs:
            sys.exit('differ on %s:\n%s\n%s' % (data.hex(), mine, theirs))
        accepted += mine.startswith('ok')
    print('%d files, %d of them accepted: no difference' % (count, accepted))


main()
