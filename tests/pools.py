#!/usr/bin/env python3
"""Pool bundles, files over them and packages of both, through the program `resb`.

The words of the files are those that ICU's `genrb` writes for the texts beside them. Each file is
read beside the `pool.res` of its folder, beside the pool bundle that `--pool` names, and as an item
of a package; then come files and pools with one damage each, with the refusal that the
checks of `crates/resb_pool_bundle/specs` give; last the time that a small file over a large pool
takes. The last line is 'N passed, M failed'.
"""
import json
import os
import struct
import subprocess
import sys
import tempfile

TOP = os.path.dirname(os.path.dirname(os.path.abspath(__file__)))
RESB = f'{TOP}/crates/resb_cli/out/resb_cli'
counts = {True: 0, False: 0}

# pool of a{alpha{"one two three"}beta{"x"}} and b{alpha{"one two three"}gamma{"three"}}
POOL_KEYS = '68706c61 65620061 67006174 616d6d61 aaaaaa00'
UNITS = '6f0000 65006e 740020 6f0077 740020 720068 650065'
POOL3 = f'20000000 8 e 16 16 0 3 16 e31610fa {POOL_KEYS} {UNITS} aaaa0000'
POOL2 = f'20000000 8 e f f 0 3 f 1baba403 {POOL_KEYS} aaaa0000'
# a{alpha{"one two three"}beta{"x"}}
A3 = '50000003 208 9 d d 2 20004 d e31610fa 780000 20000 60000 30001'
A2 = f'50000011 8 9 14 14 2 4 14 1baba403 780000 {UNITS} 20000 60000 10003'
# b{alpha{"one two three"}gamma{"three"}}
B3 = '50000001 a08 9 c c 2 a0004 c e31610fa 20000 b0000 90001'
# c{alpha{"two three"}delta:array{"x","","three"}}
C3 = ('2000000f a08 b 13 13 2 a0004 f e31610fa 746c6564 aaaa0061 780000 30000 b aaaa0009 '
      '2c0002 aaaa0024 60000005 90000003')
# d{alpha:alias{"/LOCALE/beta"}beta:int{5}}
D3 = ('20000012 8 9 16 16 2 4 a e31610fa aaaa0000 c 4c002f 43004f 4c0041 2f0045 650062 610074 '
      'aaaa0000 2 aaaa0006 3000000a 70000005')
# k{5}, with its own keys; the index has eight words, the last of which is a checksum
OWN = '2000000a 8 a c c 1 0 a 1234 aaaa006b 240001 70000005'
TREES = {
    'a': {'alpha': 'one two three', 'beta': 'x'},
    'b': {'alpha': 'one two three', 'gamma': 'three'},
    'c': {'alpha': 'two three', 'delta': ['x', '', 'three']},
    'd': {'alpha': {'alias': '/LOCALE/beta'}, 'beta': 5},
}
NO_POOL = 'this file uses a pool bundle, and there is no pool.res beside it; name one by --pool'
INVALID = 'Invalid resource bundle data: '
UNSUPPORTED = 'Unsupported resource bundle format: '
END = f'{INVALID}unexpected end of input'


def header(form, version):
    """The header of an ICU data file of this form and version."""
    return (struct.pack('<HBBHHBBBB', 32, 0xda, 0x27, 20, 0, 0, 0, 2, 0) + form
            + bytes([*version, 0, 0]) + b'\1\4\0\0' + bytes(8))


def file(words, version=(3, 0)):
    """A file of these words, in hex digits, behind the header."""
    words = [int(it, 16) for it in words.split()]
    return header(b'ResB', version) + struct.pack(f'<{len(words)}I', *words)


def with_word(words, number, word):
    """The words with another one at this place."""
    words = words.split()
    words[number] = word
    return ' '.join(words)


def package(items):
    """A package of these items, by name."""
    names, places, data = b'', [], b''
    head = 4 + 8 * len(items)
    for name in sorted(items):
        places.append(len(names))
        names += name.encode() + b'\0'
    names += b'\xaa' * (-(head + len(names)) % 16)
    rows = b''
    for place, name in zip(places, sorted(items)):
        rows += struct.pack('<II', head + place, head + len(names) + len(data))
        data += items[name] + b'\xaa' * (-len(items[name]) % 16)
    return header(b'CmnD', (1, 0)) + struct.pack('<I', len(items)) + rows + names + data


def run(*words, stdin=b''):
    """Status, output and error of a call of the program."""
    ran = subprocess.run([RESB, *words], input=stdin, capture_output=True, check=False)
    return ran.returncode, ran.stdout.decode(), ran.stderr.decode()


def seen(wanted, got, what):
    """Counts a row, and prints it where it failed."""
    counts[wanted == got] += 1
    if wanted != got:
        print(f'FAILED: {what}: {got}, where {wanted} is wanted')


def says(output, *words, stdin=b''):
    """A call that succeeds, with this on standard output."""
    seen((0, output, ''), run(*words, stdin=stdin), ' '.join(words))


def refuses(error, *words, status=1, stdin=b''):
    """A call that fails, with this on standard error."""
    seen((status, '', f'{error}\n'), run(*words, stdin=stdin), ' '.join(words))


def shows(tree, *words, stdin=b''):
    """A call whose output is the JSON of a tree."""
    status, output, error = run('dump', '--json', *words, stdin=stdin)
    seen((0, tree, ''), (status, output and json.loads(output), error), ' '.join(words))


def write(name, data):
    """Writes a file, and its folder where there is none."""
    os.makedirs(os.path.dirname(name) or '.', exist_ok=True)
    with open(name, 'wb') as out:
        out.write(data)


def read_beside():
    """Files beside the pool bundle of their folder, or the one that is named."""
    for name, words in (('a', A3), ('b', B3), ('c', C3), ('d', D3)):
        write(f'three/{name}.res', file(words))
        write(f'alone/{name}.res', file(words))
    write('three/pool.res', file(POOL3))
    write('two/pool.res', file(POOL2, (2, 0)))
    write('two/a.res', file(A2, (2, 0)))
    for name, tree in TREES.items():
        shows(tree, f'three/{name}.res')
        shows(tree, f'alone/{name}.res', '--pool', 'three/pool.res')
        refuses(f'alone/{name}.res: {NO_POOL}', 'dump', f'alone/{name}.res')
    shows(TREES['a'], 'two/a.res')
    shows(TREES['a'], '-', '--pool', 'three/pool.res', stdin=file(A3))
    refuses(f'-: {NO_POOL}', 'dump', '-', stdin=file(A3))
    says('three\n', 'get', 'three/c.res', 'delta/2')
    says('two three\n', 'get', 'alone/c.res', 'alpha', '--pool', 'three/pool.res')
    # where the limits differ, a unit from the short limit on tells an index from the limit on
    write('three/far.res', file(with_word(A3, 1, '4008')))
    shows(TREES['a'], 'three/far.res')
    says('far{\n    alpha{"one two three"}\n    beta{"x"}\n}\n', 'dump', 'three/far.res')
    says('{"alias":"/LOCALE/beta"}\n', 'get', 'three/d.res', 'alpha')
    says('d{\n    alpha:alias{"/LOCALE/beta"}\n    beta:int{5}\n}\n',
         'dump', '--icu', 'three/d.res')
    seen((0, '{"alpha":{"alias":"/LOCALE/beta"},"beta":5}\n',
          'three/d.res: this has no text, since an alias stands at alpha, which --icu prints; '
          'here is its JSON\n'), run('dump', 'three/d.res'), 'dump three/d.res')


def check_lines():
    """What `check` says of each file."""
    says('three/a.res: 3 resources, format 3.0, fallback, largest table 2, over three/pool.res\n'
         'two/a.res: 3 resources, format 2.0, fallback, largest table 2, over two/pool.res\n'
         'three/c.res: 6 resources, format 3.0, fallback, largest table 2, over three/pool.res\n',
         'check', 'three/a.res', 'two/a.res', 'three/c.res')
    says('three/pool.res: 1 resources, format 3.0, no fallback, largest table 0, pool bundle\n',
         'check', 'three/pool.res')
    refuses(f'alone/a.res: {NO_POOL}', 'check', 'alone/a.res')


def differs(output, *words):
    """A call of `diff` of files that differ, with this on standard output."""
    seen((1, output, ''), run('diff', *words), f'diff {" ".join(words)}')


def tell_differences():
    """What differs between files beside their pool bundles, over a named one, and as items."""
    lines = ('~ alpha "one two three" -> "two three"\n- beta "x"\n'
             '+ delta ["x","","three"]\n')
    differs(lines, 'three/a.res', 'three/c.res')
    differs(lines, 'two/a.res', 'three/c.res')
    differs(lines, 'alone/a.res', 'alone/c.res', '--pool', 'three/pool.res')
    differs('{"path":"beta","old":"x"}\n{"path":"gamma","new":"three"}\n',
            '--json', 'three/a.res', 'three/b.res')
    says('', 'diff', 'two/a.res', 'three/a.res')
    refuses(f'alone/a.res: {NO_POOL}', 'diff', 'alone/a.res', 'three/c.res', status=2)
    items = (('pool', POOL3), ('a', A3), ('c', C3))
    write('diff.dat', package({f'x/{name}.res': file(words) for name, words in items}))
    differs(lines, 'diff.dat/x/a.res', 'diff.dat/x/c.res')
    differs(lines, 'diff.dat/a.res', 'three/c.res')
    says('', 'diff', 'diff.dat/x/a.res', 'two/a.res')
    refuses('diff.dat: no item is named x/d.res', 'diff', 'diff.dat/x/d.res', 'three/a.res',
            status=2)


def refuse_pools():
    """Pool bundles that are none, or not the file's."""
    refuses(f'two/a.res: {INVALID}pool bundle has another checksum: three/pool.res',
            'check', 'two/a.res', '--pool', 'three/pool.res')
    refuses(f'alone/a.res: its pool bundle three/b.res: {INVALID}file is not a pool bundle',
            'check', 'alone/a.res', '--pool', 'three/b.res')
    refuses('gone.res: no such file', 'check', 'alone/a.res', '--pool', 'gone.res', status=2)
    write('cut/pool.res', file(with_word(POOL3, 2, '8')))
    write('cut/a.res', file(A3))
    refuses(f'cut/a.res: its pool bundle cut/pool.res: {END}', 'check', 'cut/a.res')
    write('own.res', file('20000000 7 8 8 8 0 0 8', (2, 0)))
    says('own.res: 1 resources, format 2.0, fallback, largest table 0\n', 'check', 'own.res',
         '--pool', 'gone.res')


def refuse_files():
    """Heads with one damage each, and strings past their block."""
    write('pool.res', file(POOL3))
    damages = [
        (file(A3, (1, 0)), f'{UNSUPPORTED}format version 1.0 is not supported'),
        (file(A3, (4, 0)), f'{INVALID}unrecognized format version'),
        (file(with_word(A3, 1, '204')), f'{INVALID}invalid index field count'),
        (file(with_word(A3, 1, '206')),
         f'{INVALID}offset to the end of 16-bit data not specified'),
        (file(with_word(A3, 1, '207')), f'{INVALID}pool checksum not specified'),
        (file(with_word(POOL2, 1, '7'), (2, 0)), f'{INVALID}pool checksum not specified'),
        (file(with_word(A3, 6, '20000')), f'{INVALID}pool strings without a pool bundle'),
        (file(with_word(A3, 6, '0')), f'{INVALID}pool strings without a pool bundle'),
        (file(with_word(A3, 8, 'e31610fb')),
         f'{INVALID}pool bundle has another checksum: pool.res'),
        (file(with_word(A3, 2, 'e')), END),
        (file(with_word(A3, 7, '8')), END),
        # a limit past the pool, so that the string's index is read there
        (file(with_word(with_word(A3, 1, '4008'), 6, '400004').replace('30001', '3f0001')), END),
        # a position past the pool's keys
        (file(A3.replace('60000', 'ff0000')),
         f'{INVALID}unexpected end of data while deserializing key'),
    ]
    for number, (data, error) in enumerate(damages):
        name = f'damaged{number}.res'
        write(name, data)
        refuses(f'{name}: {error}', 'check', name)


def read_wide_keys():
    """Positions of 32 bits: the file's own keys below 2^31, and the pool's from there on."""
    write('keys/pool.res', file(POOL2, (2, 0)))
    index = '4 b 1baba403 746c6564 aaaa0061'
    past = f'{INVALID}unexpected end of data while deserializing key'
    # its own keys end at byte 2c; the answers are those of a slow model
    for position, key in (('24', 'delta'), ('80000000', 'alpha'), ('80000006', 'beta')):
        write('keys/wide.res', file(f'4000000b 8 b e e 1 {index} 1 {position} 70000005', (2, 0)))
        shows({key: 5}, 'keys/wide.res')
        says('5\n', 'get', 'keys/wide.res', key)
    for position, error in (('2c', f'{INVALID}unterminated key string'), ('2d', past),
                            ('32', past), ('10032', past), ('7fffffff', past),
                            ('ffffffff', past)):
        write('keys/wide.res', file(f'4000000b 8 b e e 1 {index} 1 {position} 70000005', (2, 0)))
        refuses(f'keys/wide.res: {error}', 'check', 'keys/wide.res')
        refuses(f'keys/wide.res: {error}', 'dump', 'keys/wide.res')
    # of 16 bits they count on in the pool's keys
    for position, key in (('24', 'delta'), ('2c', 'alpha'), ('32', 'beta')):
        write('keys/near.res', file(f'2000000b 8 b d d 1 {index} {position}0001 70000005', (2, 0)))
        shows({key: 5}, 'keys/near.res')


def read_attributes():
    """Heads that say each thing of pools without the others, and checksums of no pool."""
    over = 'format 3.0, fallback, largest table'
    write('said/pool.res', file(with_word(POOL3, 6, '2')))
    write('said/a.res', file(A3))
    says(f'said/pool.res: 1 resources, {over} 0, pool bundle\n', 'check', 'said/pool.res')
    shows(TREES['a'], 'said/a.res')
    # a pool bundle that uses one itself
    for folder in ('said', 'alone'):
        write(f'{folder}/both.res', file(with_word(A3, 6, '20006')))
    shows(TREES['a'], 'said/both.res')
    says(f'said/both.res: 3 resources, {over} 2, pool bundle, over said/pool.res\n',
         'check', 'said/both.res')
    refuses(f'alone/both.res: {NO_POOL}', 'dump', 'alone/both.res')
    refuses(f'alone/a.res: its pool bundle said/a.res: {INVALID}file is not a pool bundle',
            'check', 'alone/a.res', '--pool', 'said/a.res')
    # files that use none have a tree, whatever their checksum is, and whichever pool is there
    for attributes, said in (('0', 'fallback, largest table 1'),
                             ('1', 'no fallback, largest table 1'),
                             ('2', 'fallback, largest table 1, pool bundle'),
                             ('3', 'no fallback, largest table 1, pool bundle'),
                             ('8', 'fallback, largest table 1')):
        for folder in ('said', 'alone'):
            name = f'{folder}/own.res'
            write(name, file(with_word(OWN, 6, attributes), (2, 0)))
            shows({'k': 5}, name)
            shows({'k': 5}, name, '--pool', 'three/pool.res')
            says(f'{name}: 2 resources, format 2.0, {said}\n', 'check', name)
    # the same bytes with the attribute that asks for a pool
    for attributes in ('4', '5', '6'):
        for folder in ('said', 'alone'):
            write(f'{folder}/own.res', file(with_word(OWN, 6, attributes), (2, 0)))
        refuses(f'alone/own.res: {NO_POOL}', 'check', 'alone/own.res')
        refuses(f'said/own.res: {INVALID}pool bundle has another checksum: said/pool.res',
                'check', 'said/own.res')
    # an index of nine words, and one of seven, which has no checksum
    write('own9.res', file('2000000b 9 b d d 1 0 b 1234 5678 aaaa006b 280001 70000005', (2, 0)))
    shows({'k': 5}, 'own9.res')
    seven = '20000009 7 9 b b 1 0 9 aaaa006b 200001 70000005'
    for attributes in ('0', '2', '4'):
        write(f'own7{attributes}.res', file(with_word(seven, 6, attributes), (2, 0)))
    shows({'k': 5}, 'own70.res')
    for name in ('own72.res', 'own74.res'):
        refuses(f'{name}: {INVALID}pool checksum not specified', 'check', name, '--pool',
                'three/pool.res')


def read_older():
    """Versions before 2.0, which have neither a 16-bit block nor a pool."""
    keys = 'aaaa0061'
    for minor, count in ((1, 5), (2, 6), (3, 6)):
        first = 1 + count
        end = first + 1
        index = f'{count:x} {end:x} {end + 2:x} {end + 2:x} 1' + (' 0' if count > 5 else '')
        table = f'{4 * first << 16 | 1:x} 7ffffffe'
        name = f'older{minor}.res'
        write(name, file(f'2{end:07x} {index} {keys} {table}', (1, minor)))
        says(f'{name}: 2 resources, format 1.{minor}, fallback, largest table 1\n', 'check', name)
        shows({'a': -2}, name)
        # a word of type 0: the empty string, or words from the body's start
        table = f'{4 * first << 16 | 1:x}'
        for word, text, tree in (
                ('0', '', ''), (f'{end + 2:x}', '3 e4002f 72', '/är'),
                (f'3{end + 2:07x}', '3 e4002f 72', {'alias': '/är'}),
                ('30000000', '', {'alias': ''})):
            write(name, file(f'2{end:07x} {index} {keys} {table} {word} {text}', (1, minor)))
            shows({'a': tree}, name)


def read_items():
    """These files as items of a package, and beside pools of another."""
    items = {'x/a.res': file(A3), 'x/curr/a.res': file(A2, (2, 0)),
             'x/curr/pool.res': file(POOL2, (2, 0)), 'x/curr/c.res': file(C3)}
    write('x.dat', package(items))
    shows(TREES['a'], 'x.dat/x/curr/a.res')
    shows(TREES['a'], 'x.dat/curr/a.res')
    shows(TREES['a'], './x.dat/curr/a.res')
    says('x\n', 'get', 'x.dat/curr/a.res', 'beta')
    says('x.dat/curr/a.res: 3 resources, format 2.0, fallback, largest table 2, '
         'over x.dat/curr/pool.res\n', 'check', 'x.dat/curr/a.res')
    refuses(f'x.dat/a.res: {NO_POOL}', 'check', 'x.dat/a.res')
    refuses(f'x.dat/curr/c.res: {INVALID}pool bundle has another checksum: x.dat/curr/pool.res',
            'check', 'x.dat/curr/c.res')
    shows(TREES['c'], 'x.dat/curr/c.res', '--pool', 'three/pool.res')
    shows(TREES['a'], 'two/a.res', '--pool', 'x.dat/curr/pool.res')
    refuses('x.dat: no item is named curr/b.res', 'check', 'x.dat/curr/b.res')
    # a library has its package behind other bytes, at a multiple of 16
    write('lib.so', b'\x7fELF' + bytes(4092) + package(items))
    says(''.join(f'{name}\n' for name in sorted(items)), 'list', 'lib.so')
    shows(TREES['a'], 'lib.so/curr/a.res')
    # items of one package in a row, and others behind them
    said = '3 resources, format 2.0, fallback, largest table 2, over'
    says(f'x.dat/curr/a.res: {said} x.dat/curr/pool.res\n'
         f'x.dat/x/curr/a.res: {said} x.dat/x/curr/pool.res\n'
         f'lib.so/curr/a.res: {said} lib.so/curr/pool.res\n'
         f'two/a.res: {said} two/pool.res\n', 'check', 'x.dat/curr/a.res', 'x.dat/x/curr/a.res',
         'lib.so/curr/a.res', 'two/a.res')
    write('odd.so', bytes(8) + package(items))
    refuses("odd.so: not an ICU data file", 'list', 'odd.so')
    shows(TREES['a'], '--limit', '1700', 'x.dat/curr/a.res')
    write('large.dat', package({**items, 'x/z.bin': bytes(2_000_000)}))
    shows(TREES['a'], '--limit', '1700', 'large.dat/curr/a.res')
    refuses('own.res: not a package, but another kind of ICU data', 'check', 'own.res/a.res')
    refuses("x.dat: this is a package of ICU's data: name an item inside it (resb list)", 'check',
            'x.dat')
    refuses("lib.so: this is a package of ICU's data: name an item inside it (resb list)", 'dump',
            'lib.so')
    refuses('x.dat/curr/a.res: this leads through a file that is no folder', 'list',
            'x.dat/curr/a.res', status=2)
    refuses('gone.dat/a.res: no such file', 'check', 'gone.dat/a.res', status=2)


def made(words, limit):
    """A file of version 3.0 over a pool: a root and the words behind the index."""
    root, rest = words[0], words[1:]
    end, short = 9 + len(rest), min(limit, 0xffff)
    head = [root, 8 | (limit & 0xffffff) << 8, 9, end, end, 0,
            4 | limit >> 24 << 12 | short << 16, 9, 1]
    return header(b'ResB', (3, 0)) + struct.pack(f'<{len(head) + len(rest)}I', *head, *rest)


def pool_of(keys, units):
    """A pool bundle of version 3.0 with these keys and units, both in bytes."""
    keys += b'\xaa' * (-len(keys) % 4)
    units += b'\xaa' * (-len(units) % 4)
    ends = [9 + len(keys) // 4, 9 + (len(keys) + len(units)) // 4]
    words = [0x20000000, 8, ends[0], ends[1], ends[1], 0, 3, ends[1], 1]
    return header(b'ResB', (3, 0)) + struct.pack('<9I', *words) + keys + units


def read_far():
    """Strings of a pool behind 65,536 units, told by limits of 17 and of 28 bits."""
    units = b'\0\0' * 70_000 + 'far'.encode('utf-16-le') + b'\0\0'
    write('far/pool.res', pool_of(b'k\0', units))
    for limit in (70_001, (1 << 28) - 1):
        write('far/a.res', made([0x80000009, 2, 0x60000000 + 70_000, 0x7000002a], limit))
        shows(['far', 42], 'far/a.res')


def read_hostile():
    """A cycle, a deep tree, and many places that lead to one string or one key of a pool."""
    many, length = 30_000, 60_000
    units = struct.pack('<4H', 0, 0xdfff, 0, length) + b'a\0' * length + bytes(4)
    write('hostile/pool.res', pool_of(b'k' * length + b'\0', units))
    write('hostile/cycle.res', made([0x80000009, 1, 0x80000009], 0))
    refuses(f'hostile/cycle.res: {INVALID}resource budget spent', 'check', 'hostile/cycle.res')
    deep = [word for place in range(11, 9 + 2 * many, 2) for word in (1, 0x80000000 + place)]
    write('hostile/deep.res', made([0x80000009, *deep, 1, 0x70000005], 0))
    strings = [0x80000009, many, *[0x60000001] * many]
    write('hostile/strings.res', made(strings, 2))
    positions = [1 << 31 | place for place in range(many)]
    write('hostile/keys.res', made([0x40000009, many, *positions, *[0x70000005] * many], 0))
    over = 'format 3.0, fallback, largest table 0, over hostile/pool.res'
    for name in ('deep', 'strings', 'keys'):
        says(f'hostile/{name}.res: {many + 1} resources, {over}\n', 'check', f'hostile/{name}.res')
    taken = many * length - many * (many - 1) // 2
    refuses(f'hostile/keys.res: the keys of its entries take {taken} bytes, more than the limit of '
            f'{1 << 28}', 'dump', 'hostile/keys.res')
    taken = 72 + many * (72 + 3 * length)
    refuses(f'hostile/strings.res: the tree takes {taken} bytes, more than the limit of 1000000',
            'dump', '--limit', '1000000', 'hostile/strings.res')


def seconds(*words):
    """The least seconds of processor, without the system's, of three calls of the program."""
    least = float('inf')
    for _ in range(3):
        child = subprocess.Popen([RESB, *words], stdout=subprocess.DEVNULL)
        _, status, usage = os.wait4(child.pid, 0)
        child.returncode = status
        least = min(least, usage.ru_utime)
    return least


def read_lightly():
    """A small file over a pool of 64 MB takes the time in which the pool's bytes come in: a
    nanosecond for each byte would be 64 ms more. That time is what `check` of the pool itself
    takes, which is a bundle whose root is empty."""
    keys, units = b'k\0' * 16_000_000, b'x\0\0\0' * 8_000_000
    write('large/pool.res', pool_of(keys, units))
    write('large/a.res', made([0x4000000a, 0, 2, 1 << 31, 1 << 31 | 4, 0x60000000, 0x60000004], 5))
    shows({'k': 'x'}, 'large/a.res')
    most = seconds('check', 'large/pool.res') + 0.03
    for words in (('check',), ('dump',), ('dump', '--json')):
        taken = seconds(*words, 'large/a.res')
        seen(True, taken <= most, f'{" ".join(words)} over a large pool: {taken} s of {most}')


def main():
    """All of it, in a folder of its own."""
    with tempfile.TemporaryDirectory() as folder:
        os.chdir(folder)
        for group in (read_beside, check_lines, tell_differences, refuse_pools, refuse_files,
                      read_wide_keys, read_attributes, read_older, read_items, read_far,
                      read_hostile, read_lightly):
            group()
    print(f'{counts[True]} passed, {counts[False]} failed')
    return counts[False] > 0


if __name__ == '__main__':
    if sys.argv[1:] == ['--help']:
        sys.exit(print(__doc__))
    sys.exit(main())
