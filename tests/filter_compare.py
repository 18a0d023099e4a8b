#!/usr/bin/env python3
"""Compares what ICU's `genrb --filterDir` leaves of random tables with what the rules are said to
mean, and with this repository's program where one is given. Run by hand; it needs ICU's tools.

    filter_compare.py [COUNT [SEED [RESB]]]

Each case is a table of tables, texts, numbers and arrays, and a file of rules, which it is likely
that some fit. The definition, as a slow model (`verdict`): of the rules that are about a path, so
that the rule's pieces begin the path's keys or the path's keys begin the rule's pieces, the last
one decides. If it has more pieces than the path has keys, what stands there is filtered in turn, if
it is a table, and else stays; otherwise `+` keeps it whole, and `-` leaves it out.
What `genrb` makes of a text and its rules must be, in `derb`'s print, what it makes of the text
that the model leaves. RESB is a command: `RESB genrb --filterDir DIR -d OUT FILE..` must make what
`genrb` makes, in `derb`'s print.
"""
import argparse
import pathlib
import random
import subprocess
import sys
import tempfile

KEYS = ['a', 'b', 'c', 'ab', 'a.b', '*', 'x-y', 'B', '0']
BATCH = 250


def tree(rng, depth):
    """A table as a list of entries, a text, a number, or an array as a tuple."""
    kind = rng.randrange(10)
    if depth == 0 or kind < 2:
        return rng.choice(['t', 'u', 7, -1])
    if kind < 3:
        return tuple(tree(rng, depth - 1) for _ in range(rng.randrange(3)))
    keys = rng.sample(KEYS, rng.randrange(5))
    return [(key, tree(rng, depth - 1)) for key in keys]


def text_of(value):
    if isinstance(value, list):
        return ':table{%s}' % ''.join('"%s"%s' % (key, text_of(inside)) for key, inside in value)
    if isinstance(value, tuple):
        return ':array{%s}' % ' '.join(text_of(inside) for inside in value)
    if isinstance(value, int):
        return ':int{%d}' % value
    return ':string{"%s"}' % value


def paths_in(value, path=()):
    if isinstance(value, list):
        for key, inside in value:
            yield path + (key,)
            yield from paths_in(inside, path + (key,))


def rule(rng, paths):
    """A sign and pieces: often those of a path that is there, with some changed."""
    if paths and rng.randrange(4):
        pieces = list(rng.choice(paths))
        if rng.randrange(3) == 0:
            pieces = pieces[:rng.randrange(len(pieces) + 1)]
        elif rng.randrange(4) == 0:
            pieces += [rng.choice(KEYS)]
    else:
        pieces = [rng.choice(KEYS) for _ in range(rng.randrange(4))]
    pieces = ['*' if rng.randrange(5) == 0 else piece for piece in pieces]
    return rng.choice('+-'), tuple(pieces)


def line_of(rng, sign, pieces):
    before = rng.choice(['', '', '', '\n', '# said\n', '#\n'])
    return '%s%s/%s\n' % (before, sign, '/'.join(pieces))


def verdict(rules, path):
    answer = 'whole'
    for sign, pieces in rules:
        if all(piece in ('*', key) for piece, key in zip(pieces, path)):
            if len(pieces) > len(path):
                answer = 'partly'
            else:
                answer = 'whole' if sign == '+' else 'out'
    return answer


def filtered(rules, value, path=()):
    if not isinstance(value, list):
        return value
    left = []
    for key, inside in value:
        answer = verdict(rules, path + (key,))
        if answer == 'whole':
            left.append((key, inside))
        elif answer == 'partly':
            left.append((key, filtered(rules, inside, path + (key,))))
    return left


def run(command, folder):
    done = subprocess.run(command, cwd=folder, capture_output=True, text=True)
    if done.returncode:
        sys.exit('%s: %d\n%s' % (' '.join(command[:6]), done.returncode, done.stderr[-2000:]))
    return done.stdout


def prints(folder, names):
    """What `derb` prints of each file, without the folder's name."""
    said = run(['derb', '-c', '-A', '-s', str(folder)] + names, folder)
    texts = said.split('// -*- Coding: UTF-8; -*-')[1:]
    if len(texts) != len(names):
        sys.exit('derb printed %d of %d files' % (len(texts), len(names)))
    return [text.replace(str(folder), '') for text in texts]


def batch(folder, cases, program):
    for part in ['whole', 'rules', 'left', 'by_rules', 'by_model', 'by_program']:
        (folder / part).mkdir()
    names = ['c%d' % number for number in range(len(cases))]
    for name, (root, lines, rules) in zip(names, cases):
        file = name + '.txt'
        (folder / 'whole' / file).write_text('%s:table%s' % (name, text_of(root)[6:]))
        (folder / 'rules' / file).write_text(lines)
        left = text_of(filtered(rules, root))
        (folder / 'left' / file).write_text('%s:table%s' % (name, left[6:]))
    files = [name + '.txt' for name in names]
    run(['genrb', '-q', '--filterDir', 'rules', '-s', 'whole', '-d', 'by_rules'] + files, folder)
    run(['genrb', '-q', '-s', 'left', '-d', 'by_model'] + files, folder)
    icu = prints(folder / 'by_rules', names)
    model = prints(folder / 'by_model', names)
    if program:
        run(program.split() + ['genrb', '--filterDir', 'rules', '-s', 'whole', '-d', 'by_program']
            + files, folder)
        ours = prints(folder / 'by_program', names)
    else:
        ours = icu
    for name, (root, lines, rules), one, other, third in zip(names, cases, icu, model, ours):
        if not one == other == third:
            print('whole: %s\nrules:\n%s\ngenrb: %s\nmodel: %s\nours: %s'
                  % (text_of(root), lines, one, other, third))
            sys.exit(1)


def main():
    words = argparse.ArgumentParser(description=__doc__,
                                    formatter_class=argparse.RawDescriptionHelpFormatter)
    words.add_argument('count', nargs='?', type=int, default=2000)
    words.add_argument('seed', nargs='?', type=int, default=1)
    words.add_argument('program', nargs='?', metavar='RESB')
    given = words.parse_args()
    count, seed, program = given.count, given.seed, given.program
    rng = random.Random(seed)
    done = changed = partly = 0
    while done < count:
        cases = []
        for _ in range(min(BATCH, count - done)):
            root = []
            while not root:
                root = tree(rng, 5)
                root = root if isinstance(root, list) else []
            paths = list(paths_in(root))
            rules = [rule(rng, paths) for _ in range(rng.randrange(1, 9))]
            cases.append((root, ''.join(line_of(rng, *each) for each in rules), rules))
            changed += filtered(rules, root) != root
            partly += any(verdict(rules, path) == 'partly' for path in paths)
        with tempfile.TemporaryDirectory() as folder:
            batch(pathlib.Path(folder), cases, program)
        done += len(cases)
    print('%d cases of seed %d, the same: %d leave something out, %d have rules below a path'
          % (done, seed, changed, partly))


if __name__ == '__main__':
    main()
