#!/usr/bin/env python3
"""Times look-ups of strings in ICU's folder `lang` over its pool beside libicu, in turn.

    look_ups.py ITEMS LOOK_UP PROGRAM

ITEMS has the folder, as `icupkg -x '*.res' -d ITEMS icudt72l.dat` makes it, LOOK_UP is the program
of look_up.c, and PROGRAM that of look_up_times.rattle. A row has the file and what is looked up,
10,000 times in a random order, and the least nanoseconds of a look-up of nine rounds of each way:
libicu, and here by `get`, by `find`, in a sorted table, and in an opened file.
"""
import os
import random
import resource
import subprocess
import sys

FILES = ('en', 'de', 'fr', 'ja')
COUNT, TURNS, ROUNDS = 10_000, 40, 9
ROOT = ('get', 'find', 'opened')
KEPT = ('kept-get', 'kept-find', 'kept-sorted', 'kept-opened')


def used():
    """The processor time of all children so far, in seconds."""
    times = resource.getrusage(resource.RUSAGE_CHILDREN)
    return times.ru_utime + times.ru_stime


def run(command, given):
    """The processor time of a command, and what it prints."""
    before = used()
    said = subprocess.run(command, input=given, capture_output=True, check=True).stdout
    return used() - before, said


def nanoseconds(make):
    """Of one look-up: a run with so many turns, less one with none."""
    (much, _), (little, _) = run(*make(TURNS)), run(*make(0))
    return (much - little) * 1e9 / (TURNS * COUNT)


def ways(items, programs, name, text, is_kept):
    """How each way is run, by its number of turns."""
    other, ours = programs
    pool, file = (open(f'{items}/lang/{it}.res', 'rb').read() for it in ('pool', name))

    def theirs(turns):
        mode = 'kept' if is_kept else 'root'
        return [other, f'{items}/lang', name, mode, str(turns)], text

    def here(way):
        def make(turns):
            head = f'{way} {turns} {len(pool)} {len(file)}\n'.encode()
            return [ours], head + pool + file + text.rstrip(b'\n')
        return make
    return [theirs, *(here(way) for way in (KEPT if is_kept else ROOT))]


def row(items, programs, name, front, is_kept):
    """The least nanoseconds of each way, for paths that begin so."""
    listed = run([programs[0], f'{items}/lang', name, 'list'], b'')[1].decode().splitlines()
    known = [it for it in listed if it.startswith(front)]
    text = ('\n'.join(random.Random(1).choices(known, k=COUNT)) + '\n').encode()
    makers = ways(items, programs, name, text, is_kept)
    if len({run(*make(1))[1] for make in makers}) != 1:
        sys.exit(f'{name}: other strings are found')
    rounds = [[nanoseconds(make) for make in makers] for _ in range(ROUNDS)]
    least = ' | '.join(f'{min(column):.0f}' for column in zip(*rounds))
    return f'| {name}: {len(known)} of `{front}` | {least} |'


def main():
    """Prints the rows."""
    if len(sys.argv) != 4:
        sys.exit(__doc__)
    items, *programs = (os.path.abspath(it) for it in sys.argv[1:])
    for front, is_kept in (('Types/', False), ('Languages/', False), ('Languages/', True)):
        for name in FILES:
            print(row(items, programs, name, front, is_kept))


if __name__ == '__main__':
    main()
