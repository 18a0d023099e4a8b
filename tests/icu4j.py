#!/usr/bin/env python3
"""Runs ICU for Java on data that `resb` made, beside its own, and compares what it prints.

    icu4j.py FOLDER [--resb PROGRAM]

Run by hand: it needs Debian's libicu4j-java, default-jdk-headless, icu-devtools and the ICU library
of the same version. FOLDER is a new one. `resb dump --icu` prints each bundle of the library, and
the texts of each folder are compiled by `resb genrb --big-endian --compact`, over a pool bundle
where ICU has one. `Icu4jLines.java` prints the lines. The last line is 'N passed, M failed': lines
that are the same, and those that differ, the first ten of which are shown.
"""
import argparse
import itertools
import os
import pathlib
import subprocess
import sys

import icu_package

TESTS = pathlib.Path(__file__).resolve().parent
RESB = TESTS.parent / 'crates/resb_cli/out/resb_cli'
JAR = '/usr/share/java/icu4j.jar'


def run(*words, **how):
    """Runs a program that has to succeed."""
    subprocess.run([str(word) for word in words], check=True, **how)


def items_in(folder):
    """Extracts the bundles of the installed library, and gives its version."""
    library, package = icu_package.cut()
    version = library.rpartition('.so.')[2].partition('.')[0]
    data = folder / f'icudt{version}l.dat'
    data.write_bytes(package)
    (folder / 'items').mkdir()
    run('icupkg', '-x', '*.res', '-d', folder / 'items', data)
    return version


def compile_folder(resb, items, texts, made):
    """Prints the bundles of a folder, and compiles the texts."""
    names = sorted(path.name for path in items.glob('*.res') if path.name != 'pool.res')
    for place in (texts, made):
        place.mkdir(parents=True, exist_ok=True)
    run(resb, 'dump', '--icu', *names, '-d', texts, cwd=items)
    words = [resb, 'genrb', '-q', '-k', '--big-endian', '--compact', '-s', texts, '-d', made]
    files = [f'{pathlib.Path(name).stem}.txt' for name in names]
    if (items / 'pool.res').exists():
        run(*words, '--writePoolBundle', made, *files)
        words += ['--usePoolBundle', made]
    run(*words, *files)
    return len(names)


def lines_of(folder, data, names):
    """What ICU for Java prints, with this folder of data before its own."""
    path = ':'.join([f'{folder}/classes', *([str(data)] if data else []), JAR])
    return subprocess.Popen(['java', '-Xmx2g', '-cp', path, 'Icu4jLines', str(names)],
                            stdout=subprocess.PIPE, text=True, encoding='utf8')


def main():
    parser = argparse.ArgumentParser(description=__doc__)
    parser.add_argument('folder', type=pathlib.Path)
    parser.add_argument('--resb', default=str(RESB))
    words = parser.parse_args()
    folder, resb = words.folder.resolve(), os.path.abspath(words.resb)
    folder.mkdir()
    version = items_in(folder)
    items = folder / 'items'
    made = folder / f'data/com/ibm/icu/impl/data/icudt{version}b'
    count = 0
    for inner in [items, *sorted(path for path in items.iterdir() if path.is_dir())]:
        below = inner.relative_to(items)
        count += compile_folder(resb, inner, folder / 'texts' / below, made / below)
    names = folder / 'names.txt'
    paths = sorted(path.relative_to(items) for path in items.rglob('*.res'))
    names.write_text(''.join(f'{path.with_suffix("")}\n' for path in paths
                             if path.name != 'pool.res'))
    run('javac', '-nowarn', '-cp', JAR, '-d', folder / 'classes', TESTS / 'Icu4jLines.java')
    own, other = lines_of(folder, None, names), lines_of(folder, folder / 'data', names)
    passed = failed = 0
    for line, found in itertools.zip_longest(own.stdout, other.stdout):
        if line == found:
            passed += 1
            continue
        failed += 1
        if failed <= 10:
            print(f'own:  {line}here: {found}', end='')
    statuses = [own.wait(), other.wait()]
    print(f'{count} bundles, statuses of java {statuses}')
    print(f'{passed} passed, {failed} failed')
    return 1 if failed or any(statuses) else 0


if __name__ == '__main__':
    sys.exit(main())
