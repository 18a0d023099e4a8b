#!/usr/bin/env python3
"""Compares the offsets of ICU's own time zones with the system's time zone database.

zoneinfo_compare.py COMMAND..        compares
zoneinfo_compare.py --cut FILE       writes the file that the ICU library holds

Run by hand, where ICU's library and the system's database are installed. The file zoneinfo64.res
is cut out of the library libicudata and given to COMMAND, the program of `zoneinfo_offsets.rattle`:
let it be `src/main.rt` of a crate `offsets: resb resb_zoneinfo hex` for the time being, and give
`rt run` in that crate; the command is `out/offsets`. Each zone of the file is asked for its offset
at 500 moments between 1900 and 2037, and those are compared with Python's `zoneinfo`. Where the
file and the database are of different versions, some zones differ; these are printed, with the
number of moments and the first of them.
"""
import glob
import os
import random
import struct
import subprocess
import sys
from datetime import datetime, timedelta, timezone
from zoneinfo import ZoneInfo, available_timezones

EPOCH = datetime(1970, 1, 1, tzinfo=timezone.utc)


def cut():
    """The file's bytes, from the table of contents of the library's data."""
    folders = ('/usr/lib', '/usr/lib64', '/usr/local/lib', '/usr/lib/*-linux-gnu')
    for path in sorted(sum((glob.glob(f'{f}/libicudata.so.*') for f in folders), [])):
        data = open(path, 'rb').read()
        mark = data.find(b'CmnD')
        if mark < 12:
            continue
        base = mark - 12
        toc = base + struct.unpack_from('<H', data, base)[0]
        count = struct.unpack_from('<I', data, toc)[0]
        rows = [struct.unpack_from('<II', data, toc + 4 + 8 * k) for k in range(count)]
        for number, (name_at, start) in enumerate(rows):
            end = data.index(b'\0', toc + name_at)
            if data[toc + name_at:end].endswith(b'/zoneinfo64.res'):
                stop = rows[number + 1][1] if number + 1 < count else len(data) - toc
                return path, data[toc + start:toc + stop]
    sys.exit('zoneinfo_compare: no libicudata with zoneinfo64.res is installed')


def version(file):
    """The version of the database that the file was made of: four digits and a letter in UTF-16."""
    for year in range(2000, 2100):
        at = file.find(str(year).encode('utf-16-le'))
        if at >= 0:
            return file[at:at + 10].decode('utf-16-le')
    return 'unknown'


def system_version():
    """The version of the system's database, where it says one."""
    for path in ('/usr/share/zoneinfo/tzdata.zi', '/usr/share/zoneinfo/+VERSION'):
        if os.path.exists(path):
            return open(path).readline().split()[-1]
    return 'unknown'


def moments():
    """500 moments between 1900 and 2037, the same ones each time."""
    random.seed(64)
    first = int(datetime(1900, 1, 1, tzinfo=timezone.utc).timestamp())
    last = int(datetime(2037, 12, 31, tzinfo=timezone.utc).timestamp())
    return sorted(random.randrange(first, last) for _ in range(500))


def wanted(name, asked):
    """The offsets by the system's database."""
    zone = ZoneInfo(name)
    return [int((EPOCH + timedelta(seconds=moment)).astimezone(zone).utcoffset().total_seconds())
            for moment in asked]


def main():
    path, file = cut()
    if sys.argv[1:2] == ['--cut']:
        open(sys.argv[2], 'wb').write(file)
        return 0
    asked = moments()
    names = sorted(available_timezones())
    text = '\n'.join([file.hex(), ' '.join(map(str, asked))] + names) + '\n'
    said = subprocess.run(sys.argv[1:], input=text, capture_output=True, text=True, check=True)
    answers = said.stdout.splitlines()[:len(names)]
    print(f'{path}: {version(file)}; system: {system_version()}; {len(names)} names')
    equal = absent = 0
    for name, answer in zip(names, answers, strict=True):
        if answer.startswith('err'):
            absent += 1
            print(f'{name}: {answer}')
            continue
        found = [int(word) for word in answer.split()]
        other = wanted(name, asked)
        places = [k for k in range(len(asked)) if found[k] != other[k]]
        if not places:
            equal += 1
            continue
        first = places[0]
        when = EPOCH + timedelta(seconds=asked[first])
        print(f'{name}: {len(places)} moments, first {when:%Y-%m-%d} {found[first]} {other[first]}')
    print(f'{equal} zones equal at {len(asked)} moments, {len(names) - equal - absent} differ, '
          f'{absent} not in the file')
    return 0


if __name__ == '__main__':
    if sys.argv[1:] == ['--help']:
        sys.exit(print(__doc__))
    sys.exit(main())
