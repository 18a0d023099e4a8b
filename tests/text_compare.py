#!/usr/bin/env python3
"""Compares readers of the text form on random texts.

    text_compare.py OURS OTHER [COUNT [SEED [tables]]]

OURS and OTHER are commands as `answers.py` says. A text is answered by `ok NAME FLAG TREE KEYS` or
`err PLACE ITEM`, where ITEM is what was expected, NAME and KEYS are in hex digits, FLAG is 1 where
fallback is on, and TREE is `s HEX ;`, `a[` trees `]`, `t{` HEX `:` tree .. `}`, `b HEX ;`, `i N ,`
or `v` N `,` .. `;` without blanks. OURS may add a word, the turns that it counted: they must be at
most 8 n + 8 for n bytes. `dump texts` of `dump.rattle` is such a command. With `tables` each text
has a table of 9 to 60 entries, in the order of their keys or not, of which some stand twice.
"""
import random
import sys

from answers import answered

PIECES = ['{', '}', '{', '}', '{', '}', ',', '"x"', '"yz"', '""', 'k', 'a', 'b', 'c', '"k"', '"a"',
          ' ', '\n', ':table', ':array', ':string', ':int', ':integer', ':bin', ':binary',
          ':intvector', ':table(nofallback)', '(nofallback)', ':', '"', '/*c*/', '//c\n', '//c\r\n',
          '//c\r', '/', '/*', '*/', '/*/', '12', '-1', '+7', '007', '4294967295', '4294967296',
          '-2147483648', '-2147483649', '+2147483648', '-', '+', '"00fF"', '"0"', '"1g"', '"0g0"',
          '00', '0f', 'ff', '\t', '\r', 'é', '"é"', '"\x00"', '_', 'k-1', ':import', ': int']
ATOMS = ['x', '"x"', '"y z"', '""', 'k', '1', '"é"']
KEYS = ['a', 'b', 'c', 'd', '"a"', '"e f"', 'a-1', '0']


def blank(rng):
    return rng.choice(['', '', '', '', ' ', '\n', '/*c*/', '//c\n', '\t '])


def leaf(rng):
    kind = rng.randrange(6)
    if kind == 0:
        return ':string{%s}' % rng.choice(ATOMS)
    if kind == 1:
        return ':bin{%s}' % rng.choice(['"00fF"', '""', '0a', '"0"', '"zz"', 'ff00'])
    if kind == 2:
        return ':int{%s}' % rng.choice(
            ['1', '-1', '+7', '007', '4294967295', '4294967296', '-2147483648', 'x'])
    if kind == 3:
        parts = [rng.choice(['1', '-1', '7']) for _ in range(rng.randrange(4))]
        return ':intvector{%s%s}' % (','.join(parts), rng.choice(['', '', ',']))
    return '{%s}' % rng.choice(ATOMS)


def group(rng, depth):
    if depth == 0 or rng.random() < 0.35:
        return leaf(rng)
    kind = rng.randrange(4)
    if kind == 0:
        return ':table{%s}' % entries(rng, depth - 1)
    if kind == 1:
        return '{%s}' % entries(rng, depth - 1)
    return rng.choice(['', ':array']) + '{%s}' % items(rng, depth - 1)


def entries(rng, depth):
    return ''.join('%s%s%s%s' % (blank(rng), rng.choice(KEYS), blank(rng), group(rng, depth))
                   for _ in range(rng.randrange(4))) + blank(rng)


def items(rng, depth):
    said = blank(rng)
    for _ in range(rng.randrange(5)):
        said += rng.choice([lambda: rng.choice(ATOMS) + rng.choice([' ', ',', '']),
                            lambda: group(rng, depth)])()
        said += rng.choice(['', '', ',', ', ', blank(rng)])
    return said


def whole(rng):
    said = blank(rng) + rng.choice(['b', '"b c"', 'x-1']) + blank(rng)
    said += rng.choice(['', '', '', ':table', ':table(nofallback)']) + blank(rng)
    return said + '{' + entries(rng, 3) + '}' + blank(rng)


def text(rng):
    way = rng.randrange(10)
    if way < 4:
        return whole(rng)
    if way < 8:
        said = whole(rng)
        for _ in range(rng.randrange(1, 4)):
            at = rng.randrange(len(said) + 1)
            change = rng.randrange(3)
            if change == 0:
                said = said[:at] + said[at + 1:]
            elif change == 1:
                said = said[:at] + rng.choice(PIECES) + said[at:]
            else:
                said = said[:at]
        return said
    return rng.choice(['b{', 'b{a', 'b{a{', '']) + ''.join(
        rng.choice(PIECES) for _ in range(rng.randrange(16)))


def large(rng):
    """A text with a table of many entries."""
    keys = ['%s%d' % (rng.choice('abAB'), rng.randrange(40)) for _ in range(rng.randrange(9, 61))]
    if rng.random() < 0.5:
        keys.sort()
    said = blank(rng)
    for key in keys:
        value = '{%s}' % rng.choice(ATOMS) if rng.random() < 0.98 else group(rng, 1)
        said += key + blank(rng) + value + blank(rng)
    return rng.choice(['b{%s}', 'b{t{%s}}', 'b{a:table{%s}k{v}}', 'b{a:array{{%s}}}']) % said


def main():
    if len(sys.argv) < 3:
        sys.exit(__doc__)
    count = int(sys.argv[3]) if len(sys.argv) > 3 else 200000
    rng = random.Random(int(sys.argv[4]) if len(sys.argv) > 4 else 1)
    make = large if sys.argv[5:] == ['tables'] else text
    accepted = 0
    for said, mine, theirs in answered(sys.argv[1], sys.argv[2], lambda: make(rng).encode(), count):
        words, wanted = mine.split(' '), theirs.split(' ')
        turns = int(words.pop()) if len(words) > len(wanted) else 0
        accepted += words[0] == 'ok'
        if words != wanted or turns > 8 * len(said) + 8:
            sys.exit('differ on %r:\n%s\n%s' % (said, mine, theirs))
    print('%d texts, %d of them accepted: no difference' % (count, accepted))


main()
