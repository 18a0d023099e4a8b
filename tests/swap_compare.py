#!/usr/bin/env python3
"""Compares `resb swap` with `icupkg -tb`.

swap_compare.py [FILE..]      compares

Run by hand, where ICU's tools are installed; where they aren't, a line says so. FILE is a .res file
or a package; without one the items of the package are taken that ICU's library holds. Each bundle
is swapped by both, and the bytes have to be the same, but for bytes aa with which `icupkg` fills up
the end of a file; swapped once more they have to be those of the file. Then `icupkg` makes a package
of the bundles outside `coll` and `brkitr`, which need items of other kinds, and swaps that; it has
to be the one that `resb swap` makes. The last line is 'N passed, M failed'.
"""
import os
import shutil
import subprocess
import sys
import tempfile

import icu_package

TOP = os.path.dirname(os.path.dirname(os.path.abspath(__file__)))
PROGRAM = f'{TOP}/crates/resb_cli/out/resb_cli'


def files_of(folder, names):
    """The files to compare: those named, and the bundles of the packages among them."""
    if not names:
        library, package = icu_package.cut()
        # icupkg knows a package by its name
        names = [f'{folder}/icudt{library.rpartition(".so.")[2].partition(".")[0]}l.dat']
        with open(names[0], 'wb') as out:
            out.write(package)
    for name in names:
        if name.endswith('.res'):
            yield name
            continue
        into = f'{folder}/items'
        os.makedirs(into, exist_ok=True)
        subprocess.run(['icupkg', '-x', '*.res', '-d', into, name], check=True)
        for base, _, inside in sorted(os.walk(into)):
            yield from (f'{base}/{file}' for file in sorted(inside))


def run(*words):
    """The status of the program, and what it says."""
    done = subprocess.run(words, executable=PROGRAM, capture_output=True)
    return done.returncode, done.stderr


def fault(file, folder):
    """What differs in one file, if anything does."""
    big, other, back = (f'{folder}/{name}' for name in ('big.res', 'other.res', 'back.res'))
    status, said = run('resb', 'swap', file, other)
    if status:
        return said
    subprocess.run(['icupkg', '-tb', file, big], check=True, capture_output=True)
    mine, icu = open(other, 'rb').read(), open(big, 'rb').read()
    if not icu.startswith(mine) or icu[len(mine):].strip(b'\xaa') or len(icu) - len(mine) > 15:
        return 'the bytes differ'
    status, said = run('resb', 'swap', other, back)
    if status or open(back, 'rb').read() != open(file, 'rb').read():
        return 'it is not swapped back'
    return None


def package_fault(folder):
    """What differs in a package of bundles, if anything does."""
    items, made, big = f'{folder}/items', f'{folder}/made', f'{folder}/big'
    names = sorted(os.path.relpath(f'{base}/{file}', items)
                   for base, _, inside in os.walk(items) for file in inside)
    names = [name for name in names if not name.startswith(('coll/', 'brkitr/'))]
    with open(f'{folder}/names.txt', 'w', encoding='ascii') as out:
        out.writelines(f'{name}\n' for name in names)
    for place in made, big:
        os.makedirs(place)
    subprocess.run(['icupkg', '-a', f'{folder}/names.txt', '-s', items, 'new', f'{made}/p.dat'],
                   check=True)
    subprocess.run(['icupkg', '-tb', f'{made}/p.dat', f'{big}/p.dat'], check=True)
    for source, wanted in (made, big), (big, made):
        status, said = run('resb', 'swap', f'{source}/p.dat', f'{folder}/swapped.dat')
        if status:
            return said
        with open(f'{folder}/swapped.dat', 'rb') as one, open(f'{wanted}/p.dat', 'rb') as other:
            if one.read() != other.read():
                return 'the bytes differ'
    return None


def main():
    if not shutil.which('icupkg'):
        print('swap_compare: no icupkg is installed')
        return 0
    passed = failed = 0
    with tempfile.TemporaryDirectory() as folder:
        for file in files_of(folder, sys.argv[1:]):
            wrong = fault(file, folder)
            passed += wrong is None
            if wrong is not None:
                failed += 1
                print(f'{file}: {wrong}')
        if not sys.argv[1:]:
            wrong = package_fault(folder)
            passed += wrong is None
            if wrong is not None:
                failed += 1
                print(f'the package: {wrong}')
    print(f'{passed} passed, {failed} failed')
    return failed != 0


if __name__ == '__main__':
    sys.exit(main())
