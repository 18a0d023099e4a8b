#!/usr/bin/env python3
"""Compares planners of pools on random strings: all units, and where each string stands.

    plan_compare.py OURS OTHER [COUNT [SEED]]

OURS and OTHER are commands as `answers.py` says. A pool is its strings in their order, each in
UTF-8 and closed by a byte 255. The answer is `ok UNITS OFFSETS TURNS ENDS` or `err MESSAGE`: the
units as four hex digits each, and then lists of an offset, or `-` where a text wasn't given, each
with a comma behind it: of each string, of each by its number, and of each string without its first
character. `dump pools` of `dump.rattle` is such a command.
"""
import random
import sys

from answers import answered

LETTERS = ['a', 'b', 'ab', 'x', 'é', '文', '\U0001f600', '\ue000', '\uffff', '\0']
LENGTHS = [0, 1, 1, 2, 3, 5, 8, 19, 20, 21, 38, 39, 40, 41, 42, 100]
LONG = [1005, 1006, 1007, 3000]


def text(rng, letters, known):
    """A new text, a known one again, the end of a known one, or one with a known end."""
    kind = rng.randrange(6)
    if known and kind == 0:
        return rng.choice(known)
    if known and kind == 1:
        end = rng.choice(known)
        return end[rng.randrange(len(end) + 1):]
    if known and kind == 2:
        return rng.choice(letters) * rng.choice([1, 1, 2, 40]) + rng.choice(known)
    if rng.randrange(150) == 0:
        return rng.choice(letters) * rng.choice(LONG)
    return ''.join(rng.choice(letters) for _ in range(rng.choice(LENGTHS)))


def pool(rng):
    """Strings of few or of many letters; one pool in a hundred has hundreds of them, for which a
    plan goes another way, and one in a thousand has a longer marker."""
    letters = rng.sample(LETTERS, rng.choice([1, 2, 3, len(LETTERS)]))
    known = []
    count = rng.choice([0, 1, 2, 3, 5, 8, 20, 60])
    if rng.randrange(100) == 0:
        letters, count = LETTERS, rng.choice([256, 400])
    for _ in range(count):
        known.append(text(rng, letters, known))
    if rng.randrange(1000) == 0:
        known.append('z' * rng.choice([65535, 65536, 70000, 1048575, 1048576, 1200000]))
        rng.shuffle(known)
    return b''.join(one.encode() + b'\xff' for one in known)


def main():
    if len(sys.argv) < 3:
        sys.exit(__doc__)
    count = int(sys.argv[3]) if len(sys.argv) > 3 else 1000
    rng = random.Random(int(sys.argv[4]) if len(sys.argv) > 4 else 1)
    strings = 0
    for data, mine, theirs in answered(sys.argv[1], sys.argv[2], lambda: pool(rng), count):
        if mine != theirs:
            sys.exit('differ on %s:\n%s\n%s' % (data.hex(), mine, theirs))
        strings += data.count(b'\xff')
    print('%d pools of %d strings: no difference' % (count, strings))


if __name__ == '__main__':
    main()
