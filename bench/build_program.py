#!/usr/bin/env python3
"""Builds a program of this folder, NAME.rattle, over the libraries that `./prove` has proved.

    python3 build_program.py NAME PROGRAM       e.g. build_program.py write_times /tmp/write_times

It takes a minute or two. The program is a crate of a copy of this repository, in a folder that goes
again; the copy has the libraries that the program stands on, with what was proved of them, some
hundred megabytes. A library that isn't proved here is proved in the copy first, which takes minutes
for each.
"""
import pathlib
import re
import shutil
import subprocess
import sys
import tempfile

BENCH = pathlib.Path(__file__).resolve().parent
TOP = BENCH.parent


def crates():
    """The crates that each crate names, by `crates.txt`."""
    lines = (TOP / 'crates.txt').read_text().splitlines()
    named = [line.split(':', 1) for line in lines if line and not line.startswith('#')]
    return {name.split()[0]: below.split() for name, below in named}


def below(names, known):
    """These crates of the repository, and all that they stand on."""
    found, pending = set(), list(names)
    while pending:
        name = pending.pop()
        if name in known and name not in found:
            found.add(name)
            pending += known[name]
    return found


def copy_libraries(libraries, copy):
    """The libraries in a folder of their own. Says which of them have nothing proved here."""
    (copy / 'crates').mkdir(parents=True)
    for file in TOP.iterdir():
        if file.is_file():
            shutil.copy(file, copy / file.name)
    for name in sorted(libraries):
        if not (TOP / 'crates' / name / 'out').exists():
            print('%s is not proved here, so it is proved first' % name, file=sys.stderr)
        shutil.copytree(TOP / 'crates' / name, copy / 'crates' / name,
                        ignore=shutil.ignore_patterns('must-fail', 'wrong-bodies'))


def build(name, program):
    """The program NAME, built as PROGRAM."""
    if not shutil.which('rt'):
        sys.exit('the toolchain (rt) is not on PATH')
    source, known = (BENCH / (name + '.rattle')).read_text(), crates()
    named = sorted(set(re.findall(r'^use (resb\w*)::', source, re.MULTILINE)))
    libraries = sorted(set(named).union(*(known[library] for library in named)))
    needed = below(named, known)
    with tempfile.TemporaryDirectory() as work:
        copy = pathlib.Path(work) / 'copy'
        copy_libraries(needed, copy)
        crate = copy / 'crates' / name
        (crate / 'src').mkdir(parents=True)
        (crate / 'src/main.rt').write_text(source)
        with open(copy / 'crates.txt', 'w') as lines:
            for library in known:
                if library in needed:
                    lines.write('%s: %s\n' % (library, ' '.join(known[library])))
            lines.write('%s: %s\n' % (name, ' '.join(libraries)))
        # with nothing to read some programs end with another status, once they are built
        told = subprocess.run(['rt', 'run'], cwd=crate, stdin=subprocess.DEVNULL,
                              stdout=subprocess.PIPE, stderr=subprocess.STDOUT)
        if not (crate / 'out' / name).exists():
            sys.exit('%s.rattle was not built:\n%s' % (name, told.stdout.decode()))
        shutil.copy(crate / 'out' / name, program)


def main():
    if len(sys.argv) != 3:
        sys.exit(__doc__)
    name, program = sys.argv[1:]
    if not (BENCH / (name + '.rattle')).exists():
        known = ' '.join(sorted(path.stem for path in BENCH.glob('*.rattle')))
        sys.exit('no program %s: there are %s' % (name, known))
    if not pathlib.Path(program).absolute().parent.is_dir():
        sys.exit('no folder for %s' % program)
    build(name, program)


if __name__ == '__main__':
    main()
