#!/usr/bin/env python3
"""Compares `resb swap` with a model that writes each random tree in both orders of bytes.

orders_compare.py PROGRAM [COUNT [SEED]]

Run by hand. The model lays a random tree out as units, words and bytes, data of collations among
them, and writes these once in little-endian and once in big-endian order; every seventh time it
puts some files into a package. PROGRAM, a built `resb`, has to swap either into the other, to copy
a file whose order is asked for, and for every tenth to print one JSON for both. The last line is
'N passed, M failed'.
"""
import os
import random
import struct
import subprocess
import sys
import tempfile


class Body:
    """Parts of a file: numbers of 16, 32 and 64 bits, and bytes."""

    def __init__(self):
        self.parts = []

    def put(self, kind, *values):
        self.parts.append((kind, values))
        return self

    def size(self):
        return len(self.bytes('<'))

    def fill(self, size, byte=b'\xaa'):
        while self.size() % size:
            self.put('B', byte)
        return self

    def bytes(self, order):
        out = b''
        for kind, values in self.parts:
            if kind == 'B':
                out += b''.join(values)
            elif kind == 'O':
                out += bytes([order == '>'])
            elif kind == 'S':
                out += values[0].bytes(order)
            else:
                out += struct.pack(f'{order}{len(values)}{kind}', *values)
        return out


def header(kind, version, size):
    """The header of data of ICU's."""
    head = Body().put('H', size).put('B', b'\xda\x27').put('H', 20, 0)
    head.put('O').put('B', b'\0\2\0', kind, version, bytes(4))
    return head.fill(size, b'\0')


def collation(rand):
    """The data of a collation, its parts random."""
    size = rand.choice([24, 28, 32])
    count = rand.choice([2, 5, 6, 8, 9, 13, 16, 17, 18, 20, 21])
    some = lambda most: rand.randrange(most) if rand.random() < .6 else 0
    parts = {j: Body() for j in range(5, 19)}
    parts[5].put('I', *(rand.randrange(2**32) for _ in range(some(5))))
    parts[6].put('B', bytes(rand.randrange(256) for _ in range(4 * some(9))))
    if rand.random() < .7:
        units, wide, fours = 2 * rand.randrange(9), rand.randrange(2), rand.randrange(5)
        parts[7].put('I', 0x54726932)
        parts[7].put('H', wide, units, fours, *(rand.randrange(2**16) for _ in range(3 + units)))
        parts[7].put('IH'[not wide], *(rand.randrange(2**16) for _ in range(4 * fours)))
        parts[7].put('B', bytes(rand.randrange(256) for _ in range(4 * some(3))))
    parts[9].put('Q', *(rand.randrange(2**64) for _ in range(some(6))))
    for j in 11, 12:
        parts[j].put('I', *(rand.randrange(2**32) for _ in range(some(6))))
    for j in 13, 14, 15, 16:
        parts[j].put('H', *(rand.randrange(2**16) for _ in range(some(6))))
    parts[17].put('B', bytes(rand.randrange(256) for _ in range(some(9))))
    data = header(b'UCol', bytes([rand.choice([4, 5]), 0, 0, 0]), size)
    offsets, at = [], 4 * count
    for j in range(5, 20):
        offsets.append(at)
        at += parts[j].size() if j < 19 and j + 1 < count and count > 5 else 0
    data.put('I', count, *(rand.randrange(2**31) for _ in range(min(count, 5) - 1)))
    data.put('I', *offsets[:max(0, count - 5)], *[rand.randrange(2**32)] * max(0, count - 20))
    for j in range(5, min(count - 1, 19)):
        data.put('S', parts[j])
    return data.put('B', bytes(rand.randrange(256) for _ in range(some(7))))


class Tree:
    """A random bundle: its keys, its 16-bit block, and its bodies."""

    def __init__(self, rand):
        self.rand = rand
        names = sorted({''.join(rand.choice('abcdXYZ_%') for _ in range(rand.randrange(1, 6)))
                        for _ in range(rand.randrange(1, 12))})
        self.keys, self.place = b'', {}
        for name in names:
            self.place[name] = 36 + len(self.keys)
            self.keys += name.encode() + b'\0'
        self.keys += b'\xaa' * (-len(self.keys) % 4)
        self.units = [0]
        self.strings = [0]
        self.words, self.bodies, self.at = [], [], 0

    def string(self):
        text = [self.rand.randrange(0x20, 0xd7ff) for _ in range(self.rand.randrange(1, 9))]
        self.strings.append(len(self.units))
        self.units += text + [0]
        return self.strings[-1]

    def table_keys(self, most):
        return sorted(self.rand.sample(sorted(self.place), self.rand.randrange(min(most, len(
            self.place)) + 1)))

    def short(self):
        """A word whose value stands in the 16-bit block, or in itself."""
        rand, kind = self.rand, self.rand.randrange(4)
        if kind == 0:
            return 7 << 28 | rand.randrange(2**28)
        if kind == 1:
            return 6 << 28 | (self.string() if rand.random() < .7 else rand.choice(self.strings))
        members = [rand.choice(self.strings) for _ in range(rand.randrange(4))]
        names = self.table_keys(4)
        at = len(self.units)
        if kind == 2:
            self.units += [len(members)] + members
            return 9 << 28 | at
        self.units += [len(names)] + [self.place[n] for n in names]
        self.units += [rand.choice(self.strings) for _ in names]
        return 5 << 28 | at

    def make(self):
        """Makes all short values first, so that the size of the 16-bit block is known."""
        self.words = [self.short() for _ in range(self.rand.randrange(1, 9))]
        self.units += [0xaaaa] * (len(self.units) % 2)
        self.at = 9 + len(self.keys) // 4 + len(self.units) // 2

    def add(self, body):
        if self.rand.random() < .1:
            free = bytes(self.rand.randrange(256) for _ in range(4 * self.rand.randrange(1, 3)))
            self.bodies.append(Body().put('B', free))
            self.at += len(free) // 4
        place = self.at
        self.bodies.append(body.fill(4))
        self.at += body.size() // 4
        return place

    def word(self, depth):
        """A random word, its body laid before."""
        rand = self.rand
        kind = rand.choice([0, 1, 1, 2, 3, 4, 8, 14, 'short', 'short', 'empty'])
        if depth == 0 and kind in (2, 4, 8):
            kind = 'short'
        if kind == 'short':
            return rand.choice(self.words)
        if kind == 'empty':
            return rand.choice([0, 1, 2, 4, 8, 14]) << 28
        body = Body()
        if kind in (0, 3):
            text = [rand.randrange(0x20, 0xd7ff) for _ in range(rand.randrange(1, 7))]
            body.put('I', len(text)).put('H', *text, 0)
        elif kind == 1:
            data = collation(rand) if rand.random() < .6 else Body().put(
                'B', bytes(rand.randrange(256) for _ in range(rand.randrange(1, 40))))
            body.put('I', data.size()).put('S', data)
        elif kind == 14:
            numbers = [rand.randrange(2**32) for _ in range(rand.randrange(1, 6))]
            body.put('I', len(numbers), *numbers)
        elif kind == 8:
            members = [self.word(depth - 1) for _ in range(rand.randrange(1, 5))]
            body.put('I', len(members), *members)
        else:
            names = self.table_keys(5)
            members = [self.word(depth - 1) for _ in names]
            places = [self.place[n] for n in names]
            if kind == 2:
                body.put('H', len(names), *places).fill(4)
            else:
                body.put('I', len(names), *places)
            body.put('I', *members)
        return kind << 28 | self.add(body)

    def file(self):
        self.make()
        names = self.table_keys(5)
        members = [self.word(3) for _ in names]
        body = Body().put('H', len(names), *(self.place[n] for n in names)).fill(4)
        root = 2 << 28 | self.add(body.put('I', *members))
        keys_end = 9 + len(self.keys) // 4
        block_end = keys_end + len(self.units) // 2
        file = header(b'ResB', b'\2\0\0\0', self.rand.choice([24, 32])).put('I', root)
        file.put('I', 7, keys_end, self.at, self.at, 12, 0, block_end)
        # a word of bytes stands before the keys, so that their places aren't those of the index
        file.put('B', b'\xaa' * 4, self.keys).put('H', *self.units)
        for body in self.bodies:
            file.put('S', body)
        return file


def package(rand):
    """A package of some files."""
    names = sorted({f'p/{rand.choice("abcdef")}{i}.res' for i in range(rand.randrange(4))})
    texts, places = b'', []
    for name in names:
        places.append(4 + 8 * len(names) + len(texts))
        texts += name.encode() + b'\0'
    items = [Tree(rand).file().fill(rand.choice([4, 16])) for _ in names]
    texts += b'\xaa' * (-(4 + 8 * len(names) + len(texts)) % 16)
    at, pairs = 4 + 8 * len(names) + len(texts), []
    for place, item in zip(places, items):
        pairs += [place, at]
        at += item.size()
    pack = header(b'CmnD', b'\1\0\0\0', rand.choice([24, 32])).put('I', len(names), *pairs)
    pack.put('B', texts)
    for item in items:
        pack.put('S', item)
    return pack


def main():
    program = sys.argv[1]
    count = int(sys.argv[2]) if len(sys.argv) > 2 else 1000
    rand = random.Random(int(sys.argv[3]) if len(sys.argv) > 3 else 1)
    passed = failed = 0
    with tempfile.TemporaryDirectory() as folder:
        small, large, out = (f'{folder}/{name}' for name in ('little.res', 'big.res', 'out.res'))

        def run(*words):
            done = subprocess.run(['resb', *words], executable=program, capture_output=True)
            return done.returncode, done.stdout, done.stderr

        def swaps(source, wanted, *words):
            if os.path.exists(out):
                os.remove(out)
            done = run('swap', source, out, *words)
            return done == (0, b'', b'') and open(out, 'rb').read() == wanted or done

        for number in range(count):
            file = package(rand) if number % 7 == 6 else Tree(rand).file()
            little, big = file.bytes('<'), file.bytes('>')
            open(small, 'wb').write(little)
            open(large, 'wb').write(big)
            tries = [swaps(small, big), swaps(large, little),
                     swaps(small, little, '--to', 'little'), swaps(large, little, '--to', 'little')]
            if number % 10 == 0 and number % 7 != 6:
                one, other = run('dump', '--json', small), run('dump', '--json', large)
                tries.append(one[:2] == other[:2] and one[0] == 0 or (one, other))
            good = all(it is True for it in tries)
            passed += good
            failed += not good
            if not good and failed < 6:
                print(number, [it for it in tries if it is not True][:1])
                for path, data in ('little', little), ('big', big):
                    open(f'/tmp/orders_{number}_{path}.res', 'wb').write(data)
    print(f'{passed} passed, {failed} failed')
    return failed != 0


if __name__ == '__main__':
    sys.exit(main())
