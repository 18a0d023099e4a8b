#!/usr/bin/env python3
"""Times the calls of `genrb` in a build of ICU's data, by `genrb` and by `resb` in turn.

    build_times.py SOURCE FOLDER [--resb PROGRAM] [--rounds N] [--only NAME]

SOURCE is ICU's folder `source`, as tests/icu_sources.py fetches it, and FOLDER a new one. The build
runs once, and its calls are kept; those for collations are left out, since `resb` makes no binary
forms. Then all calls run by `genrb`, by `resb genrb --compact` and by `resb genrb`, into empty
folders, N rounds of each in turn. With --only those alone run whose files go to a folder of this
name. A row has the least seconds of processor, user and system, and the least on the clock, beside
those of `genrb`.
Run it where nothing else runs.
"""
import argparse
import os
import pathlib
import shlex
import shutil
import subprocess
import sys
import time

TOP = pathlib.Path(__file__).resolve().parent.parent
sys.path.insert(0, str(TOP / 'tests'))

import icu_build  # noqa: E402

RESB = TOP / 'crates/resb_cli/out/resb_cli'


def calls_of(source, folder):
    """The words of each call of `genrb` in a build, but those for collations."""
    genrb = shutil.which('genrb', path=icu_build.PATH)
    log = folder / 'calls'
    wrapper = folder / 'wrapper'
    wrapper.write_text(f'#!/bin/bash\nprintf "%q " "$@" >> {log}; echo >> {log}\n'
                       f'exec {genrb} "$@"\n')
    wrapper.chmod(0o755)
    icu_build.build(icu_build.rules_of(source, None), source, folder / 'built', wrapper, 1)
    calls = [shlex.split(line) for line in log.read_text().splitlines()]
    return [words for words in calls if not any('/coll' in word for word in words)]


def moved(words, folder, name):
    """A call's words, with its files in a folder of that name."""
    old, new = str(folder / 'built/out'), str(folder / name)
    return [word.replace(old, new) for word in words]


def run_all(program, calls):
    """The seconds of processor and on the clock that the calls take, and how many fail."""
    begun, used, failed = time.monotonic(), 0.0, 0
    for words in calls:
        child = subprocess.Popen([*program, *words], stdin=subprocess.DEVNULL,
                                 stdout=subprocess.DEVNULL, stderr=subprocess.DEVNULL)
        _, status, usage = os.wait4(child.pid, 0)
        used += usage.ru_utime + usage.ru_stime
        failed += status != 0
    return used, time.monotonic() - begun, failed


def make_folders(folder, name):
    """Makes the folders that the build made, empty, for the files of another program."""
    shutil.rmtree(folder / name, ignore_errors=True)
    for made in (folder / 'built/out').rglob('*'):
        if made.is_dir():
            (folder / name / made.relative_to(folder / 'built/out')).mkdir(parents=True,
                                                                          exist_ok=True)


def main():
    words = argparse.ArgumentParser(usage=__doc__)
    words.add_argument('source', type=pathlib.Path)
    words.add_argument('folder', type=pathlib.Path)
    words.add_argument('--resb', type=pathlib.Path, default=RESB)
    words.add_argument('--rounds', type=int, default=9)
    words.add_argument('--only')
    given = words.parse_args()
    source, folder = given.source.resolve(), given.folder.resolve()
    folder.mkdir()
    calls = calls_of(source, folder)
    if given.only:
        calls = [it for it in calls if f'{folder}/built/out/{given.only}' in it]
    resb = str(given.resb.resolve())
    programs = {'genrb': ['genrb'], 'compact': [resb, 'genrb', '--compact', '--include-outside'],
                'plain': [resb, 'genrb', '--include-outside']}
    runs = {name: [] for name in programs}
    for _ in range(given.rounds):
        for name, program in programs.items():
            make_folders(folder, name)
            runs[name].append(run_all(program, [moved(it, folder, name) for it in calls]))
    least = {name: [min(column) for column in zip(*found)] for name, found in runs.items()}
    print(f'{len(calls)} calls | processor, s | clock, s | beside genrb | its clock | failed')
    for name, (used, clock, failed) in least.items():
        ratios = f'{used / least["genrb"][0]:.3f} | {clock / least["genrb"][1]:.3f}'
        print(f'{name} | {used:.2f} | {clock:.2f} | {ratios} | {failed}')


if __name__ == '__main__':
    main()
