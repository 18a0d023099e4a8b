#!/usr/bin/env python3
"""Times the parts of reading and of writing, from 10 kB to 100 MB, with the growth per tenfold.

    growth.py read PROGRAM [KIND ..] [BYTES ..]     PROGRAM is that of read_times.rattle
    growth.py write PROGRAM [KIND ..] [BYTES ..]    that of write_times.rattle

The texts are those of write_kinds.py, of so many bytes; for `read` each is compiled to a file by
the built program first. PROGRAM gives five lines, and the least of each part is printed in
milliseconds by the clock, with the growth over the size before, and the most memory in bytes for
each byte of what was given.
"""
import os
import pathlib
import re
import subprocess
import sys
import tempfile

from timing import growth, known, make, program_of, sizes_of

BENCH = pathlib.Path(__file__).resolve().parent
COMPILE = [str(BENCH.parent / 'crates/resb_tool/out/resb_tool'), 'compile']
KINDS = ['tables nested three levels', 'short vectors', 'short strings, half ends of others',
         'one letter, all lengths']


def parts_of(line):
    """The microseconds of each part that a line names."""
    found = re.findall(r'([a-z_][a-z_ ]*) (\d+) us', line.split(': ', 1)[1])
    return {name: int(number) for name, number in found}


def least(program, given):
    """What the first line says of the input, the least of each part, and the most memory."""
    with open(given, 'rb') as stdin, tempfile.TemporaryFile() as said:
        child = subprocess.Popen([program], stdin=stdin, stdout=said)
        _, status, used = os.wait4(child.pid, 0)
        said.seek(0)
        lines = said.read().decode().splitlines()
    if status != 0:
        sys.exit('%s on %s: status %d' % (program, given, os.waitstatus_to_exitcode(status)))
    if not lines or not all(': ' in line for line in lines):
        sys.exit('%s says no times: it is no program of this folder' % program)
    runs = [parts_of(line) for line in lines]
    parts = {name: min(run[name] for run in runs) for name in runs[0]}
    return lines[0].split(': ')[0], parts, used.ru_maxrss * 1024


def grows(reads, program, kind, sizes, work):
    before = {}
    for size in sizes:
        given = work / 'b.txt'
        make(str(BENCH / 'write_kinds.py'), kind, size, given)
        if reads:
            subprocess.run(COMPILE + [given, work / 'b.res'], check=True)
            given = work / 'b.res'
        what, parts, memory = least(program, given)
        said = ['%s %.2f ms%s' % (name, took / 1000, growth(took, before.get(name)))
                for name, took in parts.items()]
        print('%s; %s: %s; %.1f bytes a byte' % (
            kind, what, '; '.join(said), memory / os.path.getsize(given)), flush=True)
        before = parts


def main():
    words = sys.argv[1:]
    if '--help' in words or not words:
        print(__doc__)
        return
    part = known(words[:1], ['read', 'write'], 'part')[0]
    program = program_of(words[1:])
    if part == 'read' and not pathlib.Path(COMPILE[0]).exists():
        sys.exit("the program isn't built: ./prove builds it")
    sizes = sizes_of([word for word in words[2:] if word.isdigit()])
    kinds = known([word for word in words[2:] if not word.isdigit()], KINDS, 'kind')
    with tempfile.TemporaryDirectory() as work:
        for kind in kinds or KINDS:
            grows(part == 'read', program, kind, sizes or [10 ** k for k in range(4, 9)],
                  pathlib.Path(work))


if __name__ == '__main__':
    main()
