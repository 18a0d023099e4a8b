#!/usr/bin/env python3
"""Times `resb check` of ICU's folders over their pools beside a visit by libicu, in turn.

    folders.py ITEMS VISIT

ITEMS has the folders, as `icupkg -x '*.res' -d ITEMS icudt72l.dat` makes them, and VISIT is the
program of visit_folder.c. Small files, of fewer than 400 bytes, are left out: most of them are
names of other files, which libicu follows without an end. A row has the folder, its files and
resources, and the least of nine rounds of both.
"""
import glob
import os
import subprocess
import sys

from timing import least

TOP = os.path.dirname(os.path.dirname(os.path.abspath(__file__)))
RESB = f'{TOP}/crates/resb_cli/out/resb_cli'
FOLDERS = ('lang', 'region', 'zone', 'curr', 'unit')
LEAST, ROUNDS = 400, 9


def main():
    """Prints the rows."""
    if len(sys.argv) != 3:
        sys.exit(__doc__)
    items, visit = (os.path.abspath(it) for it in sys.argv[1:])
    for folder in FOLDERS:
        files = [it for it in sorted(glob.glob(f'{items}/{folder}/*.res'))
                 if os.path.getsize(it) >= LEAST and os.path.basename(it) != 'pool.res']
        names = [os.path.basename(it)[:-4] for it in files]
        check, other = [RESB, 'check', *files], [visit, f'{items}/{folder}', *names]
        said = subprocess.run(check, capture_output=True, text=True, check=True).stdout
        count = sum(int(line.split(': ')[1].split()[0]) for line in said.splitlines())
        times = [(least(check, 1)[0], least(other, 1)[0]) for _ in range(ROUNDS)]
        ours, theirs = (min(column) for column in zip(*times))
        print(f'| {folder}, {len(files)} files | {count:,} | {ours:.1f} ms | {theirs:.1f} ms '
              f'| {ours / theirs:.2f} |')


if __name__ == '__main__':
    main()
