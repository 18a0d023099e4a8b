#!/usr/bin/env python3
"""Compares makers of pool bundles on random bundles: all bytes.

    pool_maker_compare.py OURS OTHER [COUNT [SEED]]

OURS and OTHER are commands as `answers.py` says. They are given bundles, each the entries of its
root's table, a byte 254, the list of its keys, and a byte 254. An entry is its key, a byte 255, its
value, and a byte 255; a value is a string, or the strings of an array, each closed by a byte 253. A
listed key is closed by a byte 255. Texts are in UTF-8. The answer is `ok DIGITS`, the pool bundle,
of version 3.0 where strings stand in it and else of 2.0, or `err MESSAGE`. `pool_maker.rattle` is
such a command. Differences are printed and end the run with status 1.
"""
import random
import sys

from answers import answered
from plan_compare import LETTERS, text

KEYS = ['', 'a', 'alpha', 'beta', 'gamma', 'b', 'lpha', 'é', '文', 'delta', 'version', 'x' * 30]


def bundle(rng, letters, known):
    """Entries of strings and arrays of strings, of which some were known before, and a list of keys
    in any order, in which some are left out, or doubled, or used by no table."""
    keys = rng.sample(KEYS, rng.randrange(len(KEYS)))
    data = b''
    for key in keys:
        count = rng.choice([1, 1, 1, 2, 5])
        texts = []
        for _ in range(count):
            texts.append(rng.choice(known) if known and rng.random() < 0.5
                         else text(rng, letters, known))
            known.append(texts[-1])
        value = texts[0].encode() if count == 1 else b''.join(t.encode() + b'\xfd' for t in texts)
        data += key.encode() + b'\xff' + value + b'\xff'
    listed = rng.sample(keys, rng.randrange(len(keys) + 1)) if rng.random() < 0.2 else list(keys)
    listed += rng.sample(KEYS, rng.choice([0, 0, 1, 3]))
    if rng.random() < 0.5:
        rng.shuffle(listed)
    return data + b'\xfe' + b''.join(k.encode() + b'\xff' for k in listed) + b'\xfe'


def bundles(rng):
    """No bundle, or some, over few letters or many."""
    letters = rng.sample(LETTERS, rng.choice([1, 2, 3, len(LETTERS)]))
    known = []
    return b''.join(bundle(rng, letters, known) for _ in range(rng.choice([0, 1, 2, 2, 3, 5, 9])))


def main():
    if len(sys.argv) < 3:
        sys.exit(__doc__)
    count = int(sys.argv[3]) if len(sys.argv) > 3 else 1000
    rng = random.Random(int(sys.argv[4]) if len(sys.argv) > 4 else 1)
    with_strings = differ = 0
    for data, mine, theirs in answered(sys.argv[1], sys.argv[2], lambda: bundles(rng), count):
        with_strings += mine[3:].startswith('2000da27') and mine[35:37] == '03'
        if mine != theirs:
            differ += 1
            print('differ: %s\n    %s\n    %s' % (data.hex(), mine[:400], theirs[:400]))
            if differ == 5:
                break
    print('%d lists of bundles, %d pools with strings, %d differ' % (count, with_strings, differ))
    sys.exit(1 if differ else 0)


if __name__ == '__main__':
    main()
