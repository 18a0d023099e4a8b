#!/usr/bin/env python3
"""Compares the items of ICU's own data package by three readers.

icu_package.py [COMMAND]      compares
icu_package.py --cut FILE     writes the package that the ICU library holds

Run by hand, where ICU's library is installed; where it isn't, a line says so. The package is cut
out of the library libicudata at its symbol `icudtNN_dat`. It is read here by the layout that ICU's
`ucmndata.h` gives, and compared with what `icupkg` lists and extracts, where that is installed.
COMMAND is given the package on standard input, and prints a line for each item: its name, its
number of bytes, and the sum of its bytes. The program of `packages.rattle` is such a command: let
it be `src/main.rt` of a crate `packages: resb_package` for the time being, and give `rt run` in
that crate; the command is `out/packages`. The last line is 'N passed, M failed'.
"""
import glob
import os
import re
import shlex
import shutil
import struct
import subprocess
import sys
import tempfile

FOLDERS = ('/usr/lib', '/usr/lib64', '/usr/local/lib', '/usr/lib/*-linux-gnu')


def sections(data):
    """The rows of the section headers of a little-endian ELF file of 64 bits."""
    at, = struct.unpack_from('<Q', data, 0x28)
    size, count = struct.unpack_from('<HH', data, 0x3a)
    return [struct.unpack_from('<IIQQQQIIQQ', data, at + size * k) for k in range(count)]


def symbol(data):
    """Name, place and size of the symbol `icudtNN_dat`, by its section's address."""
    rows = sections(data)
    for _, kind, _, _, start, size, link, _, _, _ in rows:
        if kind != 11:
            continue
        names = rows[link][4]
        for at in range(start, start + size, 24):
            name_at, _, _, number, value, length = struct.unpack_from('<IBBHQQ', data, at)
            name = data[names + name_at:data.index(b'\0', names + name_at)].decode()
            if re.fullmatch(r'icudt\d+_dat', name) and 0 < number < len(rows):
                return name, value - rows[number][3] + rows[number][4], length
    return None


def cut():
    """The package's bytes, from the library."""
    for path in sorted(sum((glob.glob(f'{f}/libicudata.so.*') for f in FOLDERS), [])):
        data = open(path, 'rb').read()
        if data[:6] != b'\x7fELF\x02\x01':
            continue
        found = symbol(data)
        if found:
            return path, data[found[1]:found[1] + found[2]]
    print('icu_package: no libicudata is installed')
    sys.exit(0)


def items(data):
    """Names and items, by the layout alone."""
    toc, = struct.unpack_from('<H', data, 0)
    count, = struct.unpack_from('<I', data, toc)
    rows = [struct.unpack_from('<II', data, toc + 4 + 8 * k) for k in range(count)]
    ends = [start for _, start in rows[1:]] + [len(data) - toc]
    for (name, start), end in zip(rows, ends):
        place = toc + name
        yield data[place:data.index(b'\0', place)].decode(), data[toc + start:toc + end]


def extracted(folder, package):
    """Names and items as `icupkg` lists and extracts them; names without the package's own."""
    listed = subprocess.run(['icupkg', '-l', package], capture_output=True, text=True, check=True)
    subprocess.run(['icupkg', '-x', '*', '-d', folder, package], check=True)
    for name in listed.stdout.split():
        yield name, open(os.path.join(folder, name), 'rb').read()


def compared(what, ours, other):
    """Whether two lists are the same; if not, the first difference is printed."""
    if ours == other:
        print(f'{what}: {len(ours)} items')
        return True
    for one, two in zip(ours, other):
        if one != two:
            print(f'{what}: {one[0]} against {two[0]}')
            return False
    print(f'{what}: {len(ours)} items against {len(other)}')
    return False


def main():
    path, data = cut()
    if sys.argv[1:2] == ['--cut']:
        open(sys.argv[2], 'wb').write(data)
        return 0
    mine = list(items(data))
    print(f'{path}: {len(data)} bytes')
    results = []
    if shutil.which('icupkg'):
        with tempfile.TemporaryDirectory() as folder:
            package = os.path.join(folder, mine[0][0].split('/')[0] + '.dat')
            open(package, 'wb').write(data)
            theirs = list(extracted(folder, package))
        bare = [(name.split('/', 1)[1], item) for name, item in mine]
        results.append(compared('icupkg', bare, theirs))
    else:
        print('icu_package: no icupkg is installed')
    if sys.argv[1:]:
        run = subprocess.run(shlex.split(sys.argv[1]), input=data, capture_output=True, check=True)
        said = [tuple(line.split(' ')) for line in run.stdout.decode().split('\n')[:-1]]
        wanted = [(name, str(len(item)), str(sum(item))) for name, item in mine]
        results.append(compared(sys.argv[1], wanted, said))
    print(f'{results.count(True)} passed, {results.count(False)} failed')
    return results.count(False) > 0


if __name__ == '__main__':
    if sys.argv[1:] == ['--help']:
        sys.exit(print(__doc__))
    sys.exit(main())
