#!/usr/bin/env python3
"""Times text to file on ICU's own locale data: `resb_tool compile IN OUT` beside `genrb -q`.

    real_texts.py [NAME ..]               all texts or these: locales, unit, zone, lang, curr
    real_texts.py --make FOLDER           writes the texts there, and times nothing
    real_texts.py --prints FOLDER         writes what derb prints of each file, for icu_texts.py
    real_texts.py --turns N ..            the least of N runs, in place of five

`--program PATH` in front of these times another program; it may be given more than once. `--resb
PATH` times the program `resb` with `compile`, and `--icu PATH` with `compile --icu`, which reads
ICU's own form of text. The texts are made of the files that the installed ICU library holds: each
is cut out of libicudata, printed by ICU's `derb`, and put as a table into one text for its kind,
with its keys in quotes. Aliases, and backslashes and quotes in strings, are left out, so that both
programs read the same. Nothing of ICU's data is kept: the texts are made anew, in a temporary
folder.

A line for each text and program has milliseconds of processor, the least of so many runs, and the
most memory of the process in MB, and what both are beside `genrb`'s.
"""
import glob
import os
import pathlib
import re
import struct
import subprocess
import sys
import tempfile

from timing import known, least

TOP = pathlib.Path(__file__).resolve().parent.parent
PROGRAM = str(TOP / 'crates/resb_tool/out/resb_tool')

# each text, and the folder of the library's files that it is made of
TEXTS = {'locales': '', 'unit': 'unit', 'zone': 'zone', 'lang': 'lang', 'curr': 'curr'}

ENTRY = re.compile(
    r'^(\s*)([^\s"{},:][^"{},]*?)'
    r'(:(?:alias|array|bin|int|intvector|table)(?:\(nofallback\))?)?\s*\{(.*)$')


def cut(folder):
    """Writes each .res file of the library below a folder."""
    places = ('/usr/lib', '/usr/lib64', '/usr/local/lib', '/usr/lib/*-linux-gnu')
    for path in sorted(sum((glob.glob(f'{place}/libicudata.so.*') for place in places), [])):
        data = pathlib.Path(path).read_bytes()
        mark = data.find(b'CmnD')
        if mark < 12:
            continue
        base = mark - 12
        contents = base + struct.unpack_from('<H', data, base)[0]
        count = struct.unpack_from('<I', data, contents)[0]
        rows = [struct.unpack_from('<II', data, contents + 4 + 8 * k) for k in range(count)]
        ends = [start for _, start in rows[1:]] + [len(data) - contents]
        for (name_at, start), end in zip(rows, ends):
            stop = data.index(b'\0', contents + name_at)
            name = data[contents + name_at:stop].decode().split('/', 1)[1]
            if name.endswith('.res'):
                file = folder / name
                file.parent.mkdir(parents=True, exist_ok=True)
                file.write_bytes(data[contents + start:contents + end])
        return
    sys.exit('real_texts: no libicudata is installed')


def printed(path):
    """The text that derb prints of a file, or none: it goes round for ever on some that are aliases
    of another."""
    command = ['derb', '-s', str(path.parent), '-A', '-c', path.name]
    try:
        run = subprocess.run(command, capture_output=True, stdin=subprocess.DEVNULL, timeout=4)
    except subprocess.TimeoutExpired:
        return ''
    return run.stdout.decode() if run.returncode == 0 else ''


def as_table(name, text):
    """A file's text as derb prints it, as an entry of another table."""
    lines = []
    for line in text.splitlines():
        if line.startswith('//') or not line.strip():
            continue
        entry = ENTRY.match(line)
        if entry:
            blanks, key, kind, rest = entry.groups()
            if kind == ':alias':
                continue
            kind = '' if kind and '(' in kind else kind or ''
            lines.append(f'{blanks}"{key if lines else name}"{kind}{{{plain(rest)}')
        else:
            lines.append(plain(line))
    return '\n'.join(lines)


def plain(line):
    """A line without the backslashes and quotes of the string that stands in it."""
    front, quote, rest = line.partition('"')
    content, closing, back = rest.rpartition('"')
    return front + quote + content.replace('\\', '').replace('"', '') + closing + back


def make(folder):
    """Writes the texts below a folder, and gives their paths by their names."""
    files, made = folder / 'files', {}
    cut(files)
    for name, below in TEXTS.items():
        parts = []
        for path in sorted((files / below).glob('*.res')):
            if path.stem in ('pool', 'res_index', 'supplementalData', 'root'):
                continue
            text = printed(path)
            if '"' in text:
                parts.append(as_table(path.stem, text))
        made[name] = folder / f'{name}.txt'
        made[name].write_text('merged{\n' + '\n'.join(parts) + '\n}\n')
    return made


def write_prints(folder):
    """Writes below a folder what derb prints of each file of the library, where it prints it."""
    with tempfile.TemporaryDirectory() as made:
        files = pathlib.Path(made)
        cut(files)
        for path in sorted(files.rglob('*.res')):
            text = printed(path)
            if text:
                target = folder / path.relative_to(files).with_suffix('.txt')
                target.parent.mkdir(parents=True, exist_ok=True)
                target.write_text(text)


def main(words):
    programs, turns, names = [], 5, []
    if '--help' in words:
        print(__doc__)
        return
    if words and words[-1] in ('--program', '--resb', '--icu', '--turns', '--make',
                               '--prints'):
        sys.exit(words[-1] + ' takes a word more')
    if words[:1] == ['--prints']:
        write_prints(pathlib.Path(words[1]).resolve())
        return
    while words:
        word = words.pop(0)
        if word == '--program':
            programs.append([words.pop(0), 'compile', 'TEXT', 'FILE'])
        elif word == '--resb':
            programs.append([words.pop(0), 'compile', 'TEXT', '-d', 'FOLDER'])
        elif word == '--icu':
            programs.append([words.pop(0), 'compile', '--icu', 'TEXT', '-d', 'FOLDER'])
        elif word == '--turns':
            given = words.pop(0)
            turns = int(given) if given.isdigit() else 0
            if turns == 0:
                sys.exit(f'--turns takes a number, and not {given}')
        elif word == '--make':
            folder = pathlib.Path(words.pop(0)).resolve()
            for name, path in make(folder).items():
                print(f'{name}: {os.path.getsize(path):,} bytes')
            return
        else:
            names += known([word], TEXTS, 'text')
    with tempfile.TemporaryDirectory() as temporary:
        folder = pathlib.Path(temporary)
        # by a process of its own, since a process counts the memory of the one that started it
        subprocess.run([sys.executable, __file__, '--make', temporary],
                       stdout=subprocess.DEVNULL, check=True)
        for name in TEXTS:
            path = folder / f'{name}.txt'
            if names and name not in names:
                continue
            beside, most, status = least(['genrb', '-q', '-d', temporary, str(path)], turns)
            print(f'{name}, {os.path.getsize(path) / 1e6:.1f} MB: genrb {beside:.0f} ms, '
                  f'{most / 1e6:.0f} MB' + (f', status {status}' if status else ''))
            places = {'TEXT': path, 'FILE': folder / 'out.res', 'FOLDER': folder}
            for program in programs or [[PROGRAM, 'compile', 'TEXT', 'FILE']]:
                command = [str(places.get(word, word)) for word in program]
                took, memory, status = least(command, turns)
                print(f'    {" ".join(program)}: {took:.0f} ms (x {took / beside:.2f}), '
                      f'{memory / 1e6:.0f} MB (x {memory / most:.2f})'
                      + (f', status {status}' if status else ''))


if __name__ == '__main__':
    main(sys.argv[1:])
