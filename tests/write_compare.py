#!/usr/bin/env python3
"""Compares writers on the texts of random trees, byte for byte.

    write_compare.py OURS OTHER [COUNT [SEED [KEPT]]]

OURS is a program that takes the words `compile IN OUT`. OTHER is a command as `answers.py` says,
which answers a text by the hex digits of its file. Two texts in seven are one array of strings that
share suffixes, so that the pool is all there is. In half of the others the keys of each table
ascend. Behind each 200 of them stands one with offsets or
key positions that no 16-bit unit holds, and one of hundreds of strings, most of which differ, since
a plan goes another way for those. The first difference is printed and ends the run
with status 1. KEPT gets the hex digits of each file in a line, for `read_compare.py`.
"""
import os
import random
import shlex
import subprocess
import sys
import tempfile

from answers import answers

LETTERS = ['a', 'b', 'ab', 'x', 'é', '\U0001f600', '\ue000', '\0']


def string(rng, known):
    """A new text, a known one again, the end of a known one, or one with a known end."""
    kind = rng.randrange(6)
    if known and kind == 0:
        text = rng.choice(known)
    elif known and kind == 1:
        end = rng.choice(known)
        text = end[rng.randrange(len(end) + 1):]
    elif known and kind == 2:
        text = rng.choice(LETTERS) + rng.choice(known)
    else:
        length = rng.choice([0, 1, 1, 2, 3, 5, 8, 39, 40, 41, 42, 100])
        text = ''.join(rng.choice(LETTERS) for _ in range(length))
        if rng.random() < 0.01:
            text = rng.choice('ab') * rng.choice([1006, 1007, 3000])
    known.append(text)
    return '"%s"' % text


def strings(rng, known):
    return '{%s}' % ' '.join(string(rng, known) for _ in range(rng.randrange(1, 12)))


def entries(rng, known, depth):
    keys = ['k', 'l', 'key', 'ey', 'a', 'zz', '"é"', 'K', '0']
    count = rng.choice([0, 1, 1, 2, 3, 5])
    chosen = [rng.choice(keys) for _ in range(count)]
    if rng.ascend:
        chosen = sorted(set(chosen), key=lambda key: key.strip('"').encode())
    return ''.join('%s%s' % (key, value(rng, known, depth)) for key in chosen)


def value(rng, known, depth):
    kind = rng.randrange(9 if depth else 5)
    if kind <= 1:
        return ':string{%s}' % string(rng, known)
    if kind == 2:
        return ':int{%d}' % rng.choice([0, 1, -1, 7, 268435455, 4294967295])
    if kind == 3:
        data = bytes(rng.randrange(256) for _ in range(rng.choice([0, 1, 2, 3, 4, 15, 16, 17, 33])))
        return ':bin{"%s"}' % data.hex()
    if kind == 4:
        return ':intvector{%s}' % ','.join(
            str(rng.randrange(-5, 70000)) for _ in range(rng.choice([0, 1, 2, 5])))
    if kind == 5:
        return ':array' + strings(rng, known)
    if kind == 6:
        return ':array{%s}' % ' '.join(
            value(rng, known, depth - 1) for _ in range(rng.choice([0, 1, 2, 4])))
    return ':table{%s}' % entries(rng, known, depth - 1)


def text(rng):
    known = []
    if rng.randrange(7) < 2:
        return 'b{a:array%s}' % strings(rng, known)
    rng.ascend = rng.randrange(2) == 0
    flag = rng.choice(['', '', ':table(nofallback)'])
    return 'b%s{%s}' % (flag, entries(rng, known, 4))


def far(rng):
    """A text with a key or with strings that others stand far behind."""
    known = []
    rng.ascend = False
    if rng.randrange(2):
        long = 'K' * rng.choice([65501, 65502, 65503, 65504, 70000])
        return 'b{%s%s%s}' % (long, value(rng, known, 1), entries(rng, known, 2))
    long = ' '.join('"%s"' % (letter * rng.randrange(65400, 65600)) for letter in 'xy')
    return 'b{a:array{%s %s}%s}' % (long, string(rng, known), entries(rng, known, 3))


def many(rng):
    """A text of hundreds of strings, most of which are in it once."""
    known = []
    letters = rng.choice(['abc', 'abcdefghijklmnopqrstuvwxyz', 'aé文\U0001f600z\0'])
    new = rng.choice([0.85, 0.95, 1])
    said = []
    for number in range(rng.choice([256, 300, 700, 1500])):
        if rng.random() < new:
            length = rng.choice([1, 3, 5, 8, 15, 16, 17, 30])
            tail = ''.join(rng.choice(letters) for _ in range(length))
            known.append(rng.choice(['%d', 'x%d ', '']).replace('%d', str(number * 7919)) + tail)
            said.append('"%s"' % known[-1])
        else:
            said.append(string(rng, known))
    return 'b{a:array{%s}}' % ' '.join(said)


def file_of(program, said, folder):
    """The hex digits of the file of a text, or what is said on standard error."""
    given, made = os.path.join(folder, 'in'), os.path.join(folder, 'out')
    with open(given, 'wb') as file:
        file.write(said)
    run = subprocess.run(program + ['compile', given, made], stderr=subprocess.PIPE)
    if run.returncode != 0:
        return run.stderr.decode()
    with open(made, 'rb') as file:
        return file.read().hex()


def main():
    if len(sys.argv) < 3:
        sys.exit(__doc__)
    count = int(sys.argv[3]) if len(sys.argv) > 3 else 1000
    rng = random.Random(int(sys.argv[4]) if len(sys.argv) > 4 else 1)
    texts = [text(rng).encode() for _ in range(count)]
    texts += [far(rng).encode() for _ in range(count // 200)]
    texts += [many(rng).encode() for _ in range(count // 200)]
    wanted = answers(sys.argv[2], texts)
    with tempfile.TemporaryDirectory() as folder:
        for said, theirs in zip(texts, wanted):
            mine = file_of(shlex.split(sys.argv[1]), said, folder)
            if mine != theirs:
                sys.exit('differ on %r:\n%s\n%s' % (said, mine, theirs))
    if len(sys.argv) > 5:
        with open(sys.argv[5], 'w') as kept:
            kept.writelines(one + '\n' for one in wanted)
    print('%d texts: no difference' % len(texts))


if __name__ == '__main__':
    main()
