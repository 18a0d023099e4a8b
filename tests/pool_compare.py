#!/usr/bin/env python3
"""Compares readers of files over pool bundles on damaged ones: the count, or the refusal.

    pool_compare.py [--trees] RESB OTHER FOLDER [COUNT [SEED]]

RESB is the program `resb`, whose `check` is asked. OTHER is a command as `answers.py` says, which
is given the number of a pool's bytes in four bytes, these, and those of a file, and answers
`ok COUNT` or `err MESSAGE`, that of the pool if the file uses it and it is none, also where it has
no bytes. With --trees `dump --json` is asked, and OTHER answers the JSON of the file's tree, in the
form of docs/PROGRAM.md, in place of `ok COUNT`. FOLDER has folders of `.res` files with a
`pool.res` each, such as those that `icupkg` extracts; of each the small files are taken. One file
in seven and three pools in five stay whole. Differences are printed and end the run with status 1.
"""
import collections
import glob
import json
import os
import random
import subprocess
import sys
import tempfile

from answers import answers

AT_ONCE = 60
SMALL = range(60, 2500)
WORDS = [0, 1, 2, 5, 2**31, 2**31 + 3, 2**28 - 1]


def folders(top):
    """Pools with the small files over them, and the made ones of `pools.py`."""
    from pools import A2, A3, B3, C3, D3, POOL2, POOL3, file
    yield file(POOL3), [file(words) for words in (A3, B3, C3, D3)]
    yield file(POOL2, (2, 0)), [file(A2, (2, 0))]
    for pool in sorted(glob.glob(f'{top}/**/pool.res', recursive=True)):
        names = sorted(glob.glob(f'{os.path.dirname(pool)}/*.res'))
        files = [it for it in names if it != pool and os.path.getsize(it) in SMALL][:60]
        yield open(pool, 'rb').read(), [open(it, 'rb').read() for it in files]


def damaged(rng, data):
    """A file that is cut, or of which some bytes or words are others."""
    data = bytearray(data)
    if rng.random() < 0.06:
        return bytes(data[:rng.randrange(len(data) + 1)])
    for _ in range(rng.choice([1, 1, 1, 2, 3])):
        at = rng.randrange(len(data) if rng.random() < 0.5 else min(len(data), 100))
        kind = rng.random()
        if kind < 0.4:
            data[at] = rng.randrange(256)
        elif kind < 0.7:
            data[at] ^= 1 << rng.randrange(8)
        elif kind < 0.85:
            data[at] = rng.choice([0, 1, 2, 4, 255, 128, 0xdc, 0xdf])
        else:
            near = [0x20000000 + rng.randrange(20), 0x60000000 + rng.randrange(90000)]
            data[at & ~3:(at & ~3) + 4] = rng.choice(WORDS + near).to_bytes(4, 'little')
    return bytes(data)


def message(line):
    """The words of a refusal, as OTHER has them."""
    return line.replace('its pool bundle pool.res: ', '').replace(': pool.res', '')


def counts(program, names, folder):
    """What `check` says of files: `ok COUNT`, or `err MESSAGE`."""
    ran = subprocess.run([program, 'check', *names], cwd=folder, capture_output=True, check=False)
    lines = (ran.stdout + ran.stderr).decode().splitlines()
    said = dict(line.split(': ', 1) for line in lines)
    for name in names:
        count, resources, _ = said[name].partition(' resources, ')
        yield f'ok {count}' if resources else f'err {message(said[name])}'


def trees(program, names, folder):
    """What `dump --json` makes of files: the JSON of a tree, or `err MESSAGE`."""
    os.mkdir(f'{folder}/made')
    words = [program, 'dump', '--json', *names, '-d', 'made']
    ran = subprocess.run(words, cwd=folder, capture_output=True, check=False)
    said = dict(line.split(': ', 1) for line in ran.stderr.decode().splitlines())
    for name in names:
        made = f'{folder}/made/{name[:-4]}.json'
        if os.path.exists(made) == (name in said):
            yield f'err and JSON, or neither: {said.get(name)}'
        elif name in said:
            yield f'err {message(said[name])}'
        else:
            with open(made, encoding='utf-8') as it:
                yield it.read()


def asked(answers_of, program, pool, files):
    """What the program answers of files beside a pool."""
    with tempfile.TemporaryDirectory() as folder:
        names = [f'{number}.res' for number in range(len(files))]
        for name, data in zip(['pool.res', *names], [pool, *files]):
            with open(f'{folder}/{name}', 'wb') as out:
                out.write(data)
        yield from answers_of(program, names, folder)


def are_same(ours, theirs):
    """Whether two answers are: refusals and counts by their words, trees by their values."""
    if ours.startswith(('ok ', 'err ')) or theirs.startswith(('ok ', 'err ')):
        return ours == theirs
    return json.loads(ours) == json.loads(theirs)


def main():
    """Compares batch by batch."""
    words = sys.argv[1:]
    answers_of = trees if words[:1] == ['--trees'] else counts
    program, other, top, *numbers = words[answers_of is trees:]
    count = int(numbers[0]) if numbers else 10_000
    rng = random.Random(int(numbers[1]) if len(numbers) > 1 else 1)
    sets, seen, done = list(folders(top)), collections.Counter(), 0
    while done < count:
        pool, files = rng.choice(sets)
        pool = pool if rng.random() < 0.6 else damaged(rng, pool)
        files = [rng.choice(files) for _ in range(AT_ONCE)]
        files = [it if rng.random() < 0.15 else damaged(rng, it) for it in files]
        length = len(pool).to_bytes(4, 'little')
        wanted = answers(other, [length + pool + it for it in files])
        said = asked(answers_of, os.path.abspath(program), pool, files)
        for data, ours, theirs in zip(files, said, wanted):
            if are_same(ours, theirs):
                seen['refused' if ours.startswith('err ') else 'read'] += 1
            else:
                seen['different'] += 1
                print(f'{data.hex()} over {pool.hex()[:200]}..: {ours[:300]}, {theirs[:300]}')
        done += len(files)
    print(f'{done} files: ' + ', '.join(f'{number} {what}' for what, number in seen.items()))
    return seen['different'] > 0


if __name__ == '__main__':
    if sys.argv[1:] == ['--help']:
        sys.exit(print(__doc__))
    sys.exit(main())
