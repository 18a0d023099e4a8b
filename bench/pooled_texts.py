#!/usr/bin/env python3
"""Makes what `pooled_texts.rattle` reads: the length of a pool bundle as four bytes, its bytes, and
texts, each closed by a byte 255.

    pooled_texts.py POOL TEXT.. > INPUT
"""
import pathlib
import sys


def main():
    if len(sys.argv) < 3:
        sys.exit(__doc__)
    pool = pathlib.Path(sys.argv[1]).read_bytes()
    out = sys.stdout.buffer
    out.write(len(pool).to_bytes(4, 'little') + pool)
    for name in sys.argv[2:]:
        out.write(pathlib.Path(name).read_bytes() + b'\xff')


if __name__ == '__main__':
    main()
