#!/usr/bin/env python3
"""Writes the text of a bundle whose root is a flat table, of about so many bytes.

    flat_table.py BYTES [DISTINCT]

Keys have 18 letters, strings 24. From DISTINCT keys on (2600 where none is given) the keys begin
anew, so that later entries replace earlier ones: an earlier writer held at most 65535 units of
strings.
"""
import sys


def entries(size, distinct):
    written = 0
    i = 0
    while written < size:
        entry = 'keyOfTheTable%05d{"%s"}\n' % (
            i % distinct, "abcdefghijklmnopqrst%04d" % (i % 10000))
        written += len(entry)
        yield entry
        i += 1


def main(words):
    size = int(words[0])
    distinct = int(words[1]) if len(words) > 1 else 2600
    sys.stdout.write("bench{\n" + "".join(entries(size, distinct)) + "}\n")


if sys.argv[1:] == ['--help']:
    sys.exit(print(__doc__))
main(sys.argv[1:])
