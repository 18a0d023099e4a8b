#!/usr/bin/env python3
"""The reader of files: how many megabytes (10^6 bytes) a second of whole trees, and of the count.

    python3 read_table.py [--program PROGRAM] [--turns TURNS]

Each file is an array of ASCII strings, which the built program (`./prove`) makes of a text. It is
read by the program of `read_times.rattle`, which times itself by the clock: five readings a turn,
of which the least counts. The last column is what it takes to copy the strings of the tree. Wanted
are 300 MB/s of tree and 1,000 of count on short strings.

Without --program that program is built first, by `build_program.py`.
"""
import argparse
import pathlib
import random
import subprocess
import sys
import tempfile

from build_program import build
from growth import COMPILE, least
from timing import program_of


LETTERS = 'abcdefghijklmnopqrstuvwxyz'


def word(number, length):
    """A word of so many letters that no other number has, as long as there are so many words."""
    letters = ''
    for _ in range(length):
        number, letter = divmod(number, 26)
        letters = LETTERS[letter] + letters
    return letters


def texts():
    """What each file holds, and its strings."""
    turned = random.Random(1)
    yield ('500,000 words of eight letters, in the order of their records',
           [word(number, 8) for number in range(500000)])
    yield ('500,000 words of five to ten letters, in no order',
           [''.join(turned.choices(LETTERS, k=turned.randint(5, 10))) for _ in range(500000)])
    yield ('4,000 strings of 1,030 letters',
           [word(number, 3) + 1027 * 'x' for number in range(4000)])


def least_of(program, file, turns):
    """The least microseconds of each part in so many turns."""
    runs = [least(program, file)[1] for _ in range(turns)]
    return {name: min(run[name] for run in runs) for name in runs[0]}


def row(program, work, what, strings, turns):
    """Prints the row of the file of these strings."""
    text, file = work / 'b.txt', work / 'b.res'
    text.write_text('b{a:array{"%s"}}' % '","'.join(strings))
    subprocess.run(COMPILE + [text, file], check=True)
    size = file.stat().st_size
    parts = least_of(program, file, turns)
    cells = ['%s (%.1f MB)' % (what, size / 1e6)]
    for name in ('tree', 'count'):
        cells.append('%.1f ms, %.0f MB/s' % (parts[name] / 1000, size / parts[name]))
    copied = next(took for name, took in parts.items() if name.startswith('strings copied'))
    cells.append('%.1f ms' % (copied / 1000))
    print('| %s |' % ' | '.join(cells), flush=True)


def main():
    words = argparse.ArgumentParser(
        description=__doc__, formatter_class=argparse.RawDescriptionHelpFormatter)
    words.add_argument('--program', help='the program of read_times.rattle, if it is built')
    words.add_argument('--turns', type=int, default=5, help='runs of the program on each file')
    given = words.parse_args()
    if given.turns < 1:
        words.error('--turns: one at least')
    if not pathlib.Path(COMPILE[0]).exists():
        sys.exit("the program isn't built: ./prove builds it")
    with tempfile.TemporaryDirectory() as name:
        work = pathlib.Path(name)
        if given.program:
            program = program_of([given.program])
        else:
            program = str(work / 'read_times')
            build('read_times', program)
        print('| File | tree | count | copying its strings |\n|---|---|---|---|')
        for what, strings in texts():
            row(program, work, what, strings, given.turns)


if __name__ == '__main__':
    main()
