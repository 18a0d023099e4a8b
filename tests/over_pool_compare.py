#!/usr/bin/env python3
"""Compares writers over pool bundles on random pools and bundles: all bytes.

    over_pool_compare.py OURS OTHER [COUNT [SEED]]

OURS and OTHER are commands as `answers.py` says. They are given the length of a pool bundle in 4
bytes, the lowest first, the pool bundle, and a bundle as in `pool_maker_compare.py`, whose listed
keys are distinct here. The answer is `ok DIGITS`, the file over that pool, or `err MESSAGE`; a
message is compared behind its last colon. `pool_maker over` of `pool_maker.rattle` is such a
command. Differences are printed and end the run with status 1.

A pool has keys, of which some are those of the bundle, doubled, or ends of others, and records in
any order, of which some are strings of the bundle, or end with one. Some pools don't begin with 0,
have no strings, or end with what is no record.
"""
import random
import struct
import sys

from answers import answered
from plan_compare import LETTERS, text
from pool_maker_compare import KEYS, bundle

LONE = b'\x3d\xd8'


def marker(count, is_plain):
    if count <= 40 and is_plain:
        return b''
    if count <= 0x3ee:
        return struct.pack('<H', 0xdc00 + count)
    return struct.pack('<HH', 0xdfef + (count >> 16), count & 0xffff)


def record(one):
    units = one.encode('utf-16-le')
    return marker(len(units) // 2, '\0' not in one) + units + b'\0\0'


def filled(data):
    return data + b'\xaa' * (-len(data) % 4)


def pool_bundle(rng, keys, texts, version):
    """A pool bundle of these keys and records."""
    key_block = filled(b''.join(key.encode() + b'\0' for key in keys))
    block = (b'\0\0' if rng.random() < 0.9 else b'x\0') + b''.join(record(one) for one in texts)
    if rng.random() < 0.1:
        block += LONE + b'a\0'
    block = filled(block if version == 3 else b'\0\0')
    keys_end = 9 + len(key_block) // 4
    end = keys_end + len(block) // 4
    index = struct.pack('<9I', 0x20000000, 8, keys_end, end, end, 0, 3, end, rng.randrange(1 << 32))
    header = bytes.fromhex('2000da27140000000000020052657342')
    header += bytes([version, 0, 0, 0, 1, 4, 0, 0])
    return header + bytes(8) + index + key_block + block


def case(rng):
    """A pool and a bundle over few letters or many."""
    letters = rng.sample(LETTERS, rng.choice([1, 2, 3, len(LETTERS)]))
    known = [text(rng, letters, []) for _ in range(rng.choice([0, 1, 3, 8]))]
    texts = [text(rng, letters, known) for _ in range(rng.choice([0, 1, 2, 5, 20]))] + known
    rng.shuffle(texts)
    if rng.randrange(100) == 0:
        texts.insert(0, 'q' * rng.choice([65490, 65533, 65534, 65535, 65536, 70000]))
    keys = [rng.choice(KEYS) for _ in range(rng.choice([0, 0, 1, 3, 8]))]
    if rng.randrange(100) == 0:
        keys.insert(0, 'k' * rng.choice([65490, 65535, 65536]))
    pool = pool_bundle(rng, keys, texts, rng.choice([2, 3, 3, 3]))
    data = bundle(rng, letters, known)
    entries, listed, _ = data.split(b'\xfe')
    distinct = list(dict.fromkeys(listed.split(b'\xff')[:-1]))
    data = entries + b'\xfe' + b''.join(key + b'\xff' for key in distinct) + b'\xfe'
    return struct.pack('<I', len(pool)) + pool + data


def plain(answer):
    return answer if answer.startswith('ok ') else 'err ' + answer.split(':')[-1].split(' ', 1)[-1]


def main():
    if len(sys.argv) < 3:
        sys.exit(__doc__)
    count = int(sys.argv[3]) if len(sys.argv) > 3 else 1000
    rng = random.Random(int(sys.argv[4]) if len(sys.argv) > 4 else 1)
    lent = refused = differ = 0
    for data, mine, theirs in answered(sys.argv[1], sys.argv[2], lambda: case(rng), count):
        lent += mine[35:37] == '03'
        refused += mine.startswith('err')
        if plain(mine) != plain(theirs):
            differ += 1
            print('differ: %s\n    %s\n    %s' % (data.hex(), mine[:400], theirs[:400]))
            if differ == 5:
                break
    print('%d files, %d over strings of a pool, %d refused, %d differ'
          % (count, lent, refused, differ))
    sys.exit(1 if differ else 0)


if __name__ == '__main__':
    main()
