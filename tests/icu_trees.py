#!/usr/bin/env python3
"""Compares the trees of ICU's own files, by their JSON, with those of another reader.

    icu_trees.py RESB OTHER ITEMS

RESB is the program `resb`, whose `dump --json` is asked. OTHER is a command as `answers.py` says,
which is given the number of a pool's bytes in four bytes, these, and those of a file, and answers
the JSON of the file's tree, in the form of docs/PROGRAM.md. ITEMS is a folder of `.res` files in
folders with a `pool.res` each, as `icu_package.py --cut` and `icupkg -x` make them. Each file
is read, differences are printed, and the last line is 'N passed, M failed'.
"""
import glob
import json
import os
import subprocess
import sys

from answers import answers

AT_ONCE = 200


def given(name):
    """A file behind the pool of its folder, if one is there."""
    pool = f'{os.path.dirname(name)}/pool.res'
    pool = open(pool, 'rb').read() if os.path.exists(pool) else b''
    return len(pool).to_bytes(4, 'little') + pool + open(name, 'rb').read()


def main():
    """Compares batch by batch."""
    program, other, items = sys.argv[1:4]
    names = sorted(glob.glob(f'{items}/**/*.res', recursive=True))
    failed = 0
    for first in range(0, len(names), AT_ONCE):
        batch = names[first:first + AT_ONCE]
        for name, wanted in zip(batch, answers(other, [given(it) for it in batch])):
            words = [program, 'dump', '--json', name]
            ran = subprocess.run(words, capture_output=True, check=False)
            if ran.returncode or json.loads(ran.stdout) != json.loads(wanted):
                failed += 1
                print(f'{name}: status {ran.returncode}, {ran.stderr.decode()[:200]}')
    print(f'{len(names) - failed} passed, {failed} failed')
    return failed > 0


if __name__ == '__main__':
    if sys.argv[1:] == ['--help']:
        sys.exit(print(__doc__))
    sys.exit(main())
