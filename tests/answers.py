"""What commands answer to lines, for the scripts beside this one that compare two programs.

A command is given byte strings on standard input, a line of hex digits each (a lone `-` for none),
and answers each by a line on standard output. `dump.rattle` is such a program over `resb`.
"""
import shlex
import subprocess
import sys

AT_ONCE = 10000


def answers(command, inputs):
    given = ''.join('%s\n' % (one.hex() or '-') for one in inputs)
    run = subprocess.run(shlex.split(command), input=given, capture_output=True, text=True)
    said = run.stdout.split('\n')[:-1]
    if run.returncode != 0 or len(said) != len(inputs):
        counts = (run.returncode, len(said), len(inputs))
        sys.exit('%s: status %d, %d answers of %d' % (command, *counts))
    return said


def answered(ours, other, make, count):
    """The inputs that `make` gives, so many, each with the answers of both commands."""
    while count > 0:
        inputs = [make() for _ in range(min(count, AT_ONCE))]
        yield from zip(inputs, answers(ours, inputs), answers(other, inputs))
        count -= len(inputs)
