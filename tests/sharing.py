#!/usr/bin/env python3
"""Files in which many places lead to one long text, key or vector, counted by the program.

    tests/sharing.py PROGRAM [MEGABYTES ..]      counts each kind at each size (1 and 10)
    tests/sharing.py --measure PROGRAM [MEGABYTES ..]    the same by the program of measure.rattle
    tests/sharing.py --write KIND BYTES FILE     writes one such file, and prints its count

PROGRAM is the built program, which is asked to `check` each file. A count that isn't the one that
the file was made with, more time than 0.2 s for each megabyte, or more memory than twice the file
and 16 MB, which is about what this script itself has, is a failure. Where it measures, the file is
read from standard input, which takes it once more, at most twice as the buffer grows, so that it
may have four times the file. To build that program let `measure.rattle` be `src/main.rt` of a crate
`measure_file: resb` for the time being, and call `rt run` there.
"""
import os
import struct
import subprocess
import sys
import tempfile

HEADER = bytes.fromhex(
    "2000da27 14000000 00000200 52657342 02000000 01040000 00000000 00000000"
)
STRING, TABLE32, INTEGER, ARRAY, VECTOR = 6, 4, 7, 8, 14


def word(kind, value):
    return struct.pack("<I", kind << 28 | value)


def laid(keys, block, rest, kind):
    """A file: keys, 16-bit block, and the rest, at whose start the root stands."""
    keys += b"\xaa" * (-len(keys) % 4)
    block += b"\xaa" * (-len(block) % 4)
    keys_end = 8 + len(keys) // 4
    block_end = keys_end + len(block) // 4
    end = block_end + len(rest) // 4
    index = struct.pack("<7I", 7, keys_end, end, end, 0, 0, block_end)
    return HEADER + word(kind, block_end) + index + keys + block + rest


def array(words):
    return struct.pack("<I", len(words) // 4) + words


def string(size):
    """An array that leads to one long string again and again."""
    units = size // 4
    block = struct.pack("<4H", 0, 0xDFFF, units >> 16, units & 0xFFFF) + b"a\0" * units
    many = size // 8
    return laid(b"", block, array(word(STRING, 1) * many), ARRAY), many + 1


def strings_in_a_string(size):
    """An array that leads to places in one long string, each of which has a marker there."""
    groups = size // 16
    block = [struct.pack("<4H", 0, 0xDFFF, 4 * groups >> 16, 4 * groups & 0xFFFF)]
    starts = []
    for number in range(groups):
        left = 4 * (groups - number - 1)
        block.append(struct.pack("<4H", 0xD800, 0xDFFF, left >> 16, 0))
        starts.append(word(STRING, 4 + 4 * number + 1))
    starts += starts
    return laid(b"", b"".join(block), array(b"".join(starts)), ARRAY), 2 * groups + 1


def table(positions):
    many = len(positions)
    keys = struct.pack("<%dI" % many, *positions)
    return struct.pack("<I", many) + keys + word(INTEGER, 5) * many


def key(size):
    """A table whose entries have one long key."""
    many = size // 16
    return laid(b"a" * (size // 2) + b"\0", b"", table([32] * many), TABLE32), many + 1


def ends_of_a_key(size):
    """A table whose entries have the ends of one long key."""
    many = size // 16
    places = [32 + number for number in range(many)]
    return laid(b"a" * (size // 2) + b"\0", b"", table(places), TABLE32), many + 1


def vector(size):
    """An array that leads to one long vector again and again."""
    many = size // 8
    numbers = struct.pack("<I", many) + b"\1\0\0\0" * many
    at = 8 + 1 + many
    return laid(b"", b"", array(word(VECTOR, at) * many) + numbers, ARRAY), many + 1


def nested(size):
    """Arrays of one array each, and an integer in the last."""
    many = size // 8
    words = b"".join(
        struct.pack("<I", 1) + word(ARRAY, 8 + 2 * number) for number in range(1, many)
    )
    words += struct.pack("<I", 1) + word(INTEGER, 5)
    return laid(b"", b"", words, ARRAY), many + 1


def nested_first(size):
    """Arrays of an array and an integer each: all of them wait for their integer."""
    many = size // 12
    words = b"".join(
        struct.pack("<I", 2) + word(ARRAY, 8 + 3 * number) + word(INTEGER, 5)
        for number in range(1, many)
    )
    words += struct.pack("<I", 1) + word(INTEGER, 5) + b"\0\0\0\0"
    return laid(b"", b"", words, ARRAY), 2 * many


KINDS = [string, strings_in_a_string, key, ends_of_a_key, vector, nested, nested_first]


def counted(program, path, measures):
    """What the program prints, its processor time, and the most memory that it had, in bytes."""
    words = [program] if measures else [program, "check", path]
    with open(path, "rb") as file:
        child = subprocess.Popen(words, stdin=file, stdout=subprocess.PIPE)
        text = child.stdout.read().decode()
    _, status, used = os.wait4(child.pid, 0)
    child.returncode = status
    return text, used.ru_utime + used.ru_stime, used.ru_maxrss * 1024


def main():
    if sys.argv[1] == "--write":
        named = {kind.__name__: kind for kind in KINDS}
        data, count = named[sys.argv[2]](int(sys.argv[3]))
        with open(sys.argv[4], "wb") as out:
            out.write(data)
        print(count)
        return 0
    measures = sys.argv[1] == "--measure"
    words = sys.argv[2:] if measures else sys.argv[1:]
    sizes = [int(size) for size in words[1:]] or [1, 10]
    most = 4 if measures else 2
    passed = failed = 0
    for size in sizes:
        for kind in KINDS:
            with tempfile.NamedTemporaryFile() as out:
                make = [sys.executable, sys.argv[0], "--write", kind.__name__]
                make += [str(size * 1000000), out.name]
                count = int(subprocess.run(make, check=True, stdout=subprocess.PIPE).stdout)
                length = os.path.getsize(out.name)
                text, seconds, memory = counted(words[0], out.name, measures)
            good = text.startswith("ok %d resources" % count)
            few = seconds <= 0.2 * size and memory <= most * length + 16000000
            row = (kind.__name__, size, seconds, memory / length, text.strip())
            print("%-20s %4d MB %8.3f s %6.2f bytes a byte   %s" % row)
            if good and few:
                passed += 1
            else:
                failed += 1
                print("failed: %d resources are wanted" % count)
    print("%d passed, %d failed" % (passed, failed))
    return 1 if failed else 0


if __name__ == "__main__":
    if sys.argv[1:] == ["--help"]:
        sys.exit(print(__doc__))
    sys.exit(main())
