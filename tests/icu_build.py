#!/usr/bin/env python3
"""Runs the build of ICU's own data twice, by `genrb` and with `resb` in its place.

    icu_build.py SOURCE FOLDER [--resb PROGRAM] [--jobs N] [--filters FILE] [--compact]

SOURCE is ICU's folder `source` with its `data` and `python`, as `icu_sources.py` fetches it. FOLDER
is a new one for what is built. ICU's `databuilder` writes the rules for `make`, which are run with
the tools of Debian's icu-devtools: once as they are, and once with the program `resb` in the place
of `genrb`, the proved one if none is named. The binary forms of rules of collation are taken from
the files of the first build, since only ICU's compiler makes them (`--collation`). The root's rules
of collation stand in another folder (`--include-outside`). A call that
fails stops none that is behind it, by `make -i`: what one of the two can't build is counted.

FILE says in ICU's own form which data are left out, as ICU's `ICU_DATA_FILTER_FILE` does. The
databuilder makes of it a file of rules for each text that it is about, and hands their folders to
`genrb --filterDir`; a first line counts these files. Without a FILE it does so too, for the
collations of two old character sets. With --compact the other program is asked for `genrb`'s bytes,
and a line counts the pool bundles that have them.

Each `.res` file that both have with other bytes is printed by ICU's `derb`, and the prints are
compared; where `derb` prints nothing, as on some aliases, those of `resb dump --icu`. A line for
each folder has how many files the one and the other have, how many are the same or have the same
print, how many the same bytes, and their bytes, with the pool bundle. A line for each reason why
the other has no such file, as the program said it of the text, has the files with it. The last line
is 'N passed, M failed': files of `genrb` that the other has with the same print, and those that it
lacks or has otherwise.
"""
import argparse
import collections
import concurrent.futures
import os
import pathlib
import re
import shutil
import subprocess
import sys

TOP = pathlib.Path(__file__).resolve().parent.parent
RESB = TOP / 'crates/resb_cli/out/resb_cli'
TOOLS = ('genbrk', 'gencfu', 'gencnval', 'gendict', 'gensprep', 'icupkg', 'makeconv')
PATH = '/usr/bin:/usr/sbin:/bin:/sbin'
# the seconds after which derb, which goes round for ever on some aliases, prints nothing more
PATIENCE = 10


def rules_of(source, filters):
    """ICU's rules for `make`."""
    words = [sys.executable, '-B', '-m', 'icutools.databuilder', '--mode', 'gnumake', '--src_dir',
             f'{source}/data', *(['--filter_file', str(filters)] if filters else [])]
    surroundings = {**os.environ, 'PYTHONPATH': f'{source}/python'}
    ran = subprocess.run(words, env=surroundings, capture_output=True, check=True)
    return ran.stdout


def build(rules, source, folder, genrb, jobs):
    """Builds all data below the folder by the rules, with these words in the place of `genrb`."""
    tools = folder / 'tools'
    tools.mkdir(parents=True)
    for tool in TOOLS:
        (tools / tool).symlink_to(shutil.which(tool, path=PATH))
    (tools / 'genrb').write_text(f'#!/bin/sh\nexec {genrb} "$@"\n')
    (tools / 'genrb').chmod(0o755)
    (folder / 'rules.mk').write_bytes(rules)
    (folder / 'Makefile').write_text('everything:\n\ninclude rules.mk\n\n'
                                     'everything: $(ICUDATA_ALL_OUTPUT_FILES)\n')
    words = ['make', '-i', f'-j{jobs}', f'TOOLBINDIR={tools}', 'INVOKE=', f'srcdir={source}/data',
             f'OUT_DIR={folder}/out', f'TMP_DIR={folder}/tmp', 'MKINSTALLDIRS=mkdir -p',
             'ICUDATA_CHAR=l']
    with open(folder / 'log', 'wb') as log:
        subprocess.run(words, cwd=folder, stdout=log, stderr=log, check=False)
    return folder / 'out'


def printed(folder, name):
    """What ICU's `derb` prints of a file. None where it prints nothing."""
    # it prints the folder that it was given, so that this is the one in which it runs; of a file
    # in `.`, without the slash, it finds none, and its status is 0
    words = ['derb', '-c', '-A', '-s', './', pathlib.Path(name).name]
    place = (folder / name).parent
    try:
        ran = subprocess.run(words, cwd=place, capture_output=True, timeout=PATIENCE, check=False)
    except subprocess.TimeoutExpired:
        return None
    return ran.stdout or None


def dumped(resb, path):
    """What `resb` prints of a file, which has ICU's own form or is JSON."""
    ran = subprocess.run([resb, 'dump', '--icu', path], capture_output=True, check=True)
    return ran.stdout


def judge(resb, theirs, ours, name):
    """By which reader both files of a name have one tree, if they have one."""
    one, other = theirs / name, ours / name
    if one.read_bytes() == other.read_bytes():
        return 'derb'
    wanted = printed(theirs, name)
    if wanted is not None:
        return 'derb' if wanted == printed(ours, name) else None
    return 'resb' if dumped(resb, one) == dumped(resb, other) else None


def files_in(folder):
    """The `.res` files below a folder."""
    return {str(it.relative_to(folder)) for it in folder.rglob('*.res')}


def is_pool(name):
    """Whether a file of a name is a pool bundle."""
    return name.endswith('pool.res')


def size(path):
    """The bytes of a file, none where it isn't there."""
    return path.stat().st_size if path.exists() else 0


def said_of(name, said):
    """What the program said of the text that a file is made of."""
    # the files of two folders of texts stand in the upper one
    folder = os.path.dirname(name) or '(?:locales|misc)'
    place = re.compile(rf'/{folder}/{pathlib.Path(name).stem}\.txt:[\d:]* (.*)')
    found = [it[1] for it in map(place.search, said) if it]
    return found[0] if found else 'missing'


def judges(resb, theirs, ours, names, jobs):
    """The names under which both have one tree, with the reader that says so."""
    with concurrent.futures.ThreadPoolExecutor(jobs) as pool:
        found = pool.map(lambda it: judge(resb, theirs, ours, it), names)
        return {name: reader for name, reader in zip(names, found) if reader}


def print_rows(theirs, ours, wanted, had, same):
    """A line for each folder."""
    rows = collections.defaultdict(lambda: [0] * 6)
    for name in sorted(wanted | had):
        row, one, other = rows[os.path.dirname(name) or '.'], theirs / name, ours / name
        if not is_pool(name):
            row[0] += name in wanted
            row[1] += name in had
            row[2] += name in same
            row[3] += name in same and one.read_bytes() == other.read_bytes()
        row[4] += size(one)
        row[5] += size(other)
    print('folder | genrb | resb | same | same bytes | bytes of genrb | bytes of resb')
    for folder, row in sorted(rows.items()):
        print(folder, *row, sep=' | ')
    print('all', *(sum(column) for column in zip(*rows.values())), sep=' | ')


def count_pools(theirs, ours, names):
    """Says how many pool bundles of these names have the same bytes."""
    pools = [it for it in names if is_pool(it)]
    same = sum((theirs / it).read_bytes() == (ours / it).read_bytes() for it in pools)
    print(f'{same} of {len(pools)} pool bundles with the same bytes')


def compare(resb, theirs, ours, jobs):
    """Prints what differs, and answers how many files are the same, and how many not."""
    wanted, had = files_in(theirs), files_in(ours)
    both = sorted(it for it in wanted & had if not is_pool(it))
    same = judges(resb, theirs, ours, both, jobs)
    print_rows(theirs, ours, wanted, had, same)
    count_pools(theirs, ours, wanted & had)
    by_resb = [name for name, reader in same.items() if reader == 'resb']
    print(f'{len(by_resb)} the same by resb dump, where derb prints nothing: {" ".join(by_resb)}')
    said = (ours.parent / 'log').read_text(errors='replace').splitlines()
    failed = [it for it in sorted(wanted - set(same)) if it in wanted - had or not is_pool(it)]
    reasons = collections.defaultdict(list)
    for name in failed:
        reasons['another print' if name in had else said_of(name, said)].append(name)
    for reason, names in reasons.items():
        print(f'{len(names)} {reason}: {" ".join(names)}')
    return len(same), len(failed)


def main():
    """Both builds, and what differs."""
    words = argparse.ArgumentParser(usage=__doc__)
    words.add_argument('source', type=pathlib.Path)
    words.add_argument('folder', type=pathlib.Path)
    words.add_argument('--resb', type=pathlib.Path, default=RESB)
    words.add_argument('--jobs', type=int, default=2)
    words.add_argument('--filters', type=pathlib.Path)
    words.add_argument('--compact', action='store_true')
    given = words.parse_args()
    source, folder, resb = (it.resolve() for it in (given.source, given.folder, given.resb))
    rules = rules_of(source, given.filters and given.filters.resolve())
    theirs = build(rules, source, folder / 'genrb', shutil.which('genrb', path=PATH), given.jobs)
    words = (f'{resb} genrb --include-outside --collation {theirs}/coll'
             + ' --compact' * given.compact)
    ours = build(rules, source, folder / 'resb', words, given.jobs)
    filtered = sum(it.is_file() for it in (folder / 'resb/tmp/filters').rglob('*'))
    print(f'{filtered} files of rules')
    passed, failed = compare(resb, theirs, ours, given.jobs)
    print(f'{passed} passed, {failed} failed')
    return failed > 0


if __name__ == '__main__':
    sys.exit(main())
