#!/usr/bin/env python3
"""What genrb and this program say of texts that are broken in one place, as a person would.

    broken_texts.py [--all]

The texts are made of ICU's German names of currencies, units and zones, which are cut out of the
installed ICU data and printed by `derb`, so that nothing of them is kept here: each kind breaks
the entry in the middle of one. Both compile it, ours by `resb compile --icu`. A row for each kind
says whether each refuses it, whether it warns of it, and whether it names the broken line or the
next one; with --all also what each says. The last line counts. Strings need no quotes in this form:
of some kinds both make the same, a string with apostrophes or an array, and nothing is refused.
"""
import pathlib
import re
import shutil
import subprocess
import sys
import tempfile

from real_texts import cut, printed

TOP = pathlib.Path(__file__).resolve().parent.parent
PROGRAM = TOP / 'crates' / 'resb_cli' / 'out' / 'resb_cli'

# an entry, what stands in its place, and the file of ICU's that has one like it
ENTRY = r'^( +)([\w:-]+) \{ "([^"\\]{4,})" \}$'
OPENS = r'^( +)([\w:-]+)(:\w+)? ?\{$'
ITEM = r'^( +)"([^"\\]{4,})",$'
CLOSES = r'^( +)\}$'


def entry(form):
    """An entry of a key and a string, written otherwise."""
    return ENTRY, lambda blanks, key, text: blanks + form.format(key=key, text=text)


def opening(form):
    """The line on which a table opens, written otherwise."""
    return OPENS, lambda blanks, key, kind: blanks + form.format(key=key, kind=kind or '')


def item(form):
    """An item of an array, written otherwise."""
    return ITEM, lambda blanks, text: blanks + form.format(text=text)


def closing(form):
    """The line on which a group closes, written otherwise."""
    return CLOSES, lambda blanks: blanks + form


KINDS = {
    'no closing brace of a table': closing(''),
    'one closing brace too many': closing('} }'),
    'a bracket that closes a group': closing(']'),
    'no opening brace of a table': opening('{key}{kind}'),
    'two opening braces of a table': opening('{key}{kind} {{ {{'),
    'a bracket that opens a table': opening('{key}{kind} ['),
    'no closing brace of an entry': entry('{key} {{ "{text}"'),
    'no opening brace of an entry': entry('{key} "{text}" }}'),
    'no braces of an entry': entry('{key} "{text}"'),
    'no closing quote': entry('{key} {{ "{text} }}'),
    'no opening quote': entry('{key} {{ {text}" }}'),
    'no quotes round a message': entry('{key} {{ {text} und mehr {{0}} }}'),
    'no quotes round words with a comma': entry('{key} {{ {text}, und mehr }}'),
    'another quote inside': entry('{key} {{ "{text} "und" mehr" }}'),
    'single quotes': entry("{key} {{ '{text}' }}"),
    'no key': entry('{{ "{text}" }}'),
    'a doubled key': entry('{key} {{ "{text}" }}\n{key} {{ "{text}" }}'),
    'a comma behind an entry': entry('{key} {{ "{text}" }},'),
    'a colon as in JSON': entry('{key}: "{text}"'),
    'an equals sign': entry('{key} = "{text}"'),
    'an unknown escape': entry('{key} {{ "{text}\\u12" }}'),
    'an unknown type': entry('{key}:strnig {{ "{text}" }}'),
    'a type of other letters': entry('{key}:integre {{ 5 }}'),
    'a word for a number': entry('{key}:int {{ five }}'),
    'a number with a point': entry('{key}:int {{ 3.5 }}'),
    'an odd hex digit': entry('{key}:bin {{ "00f" }}'),
    'letters that are no hex digits': entry('{key}:bin {{ "00fg" }}'),
    'a comma missing in an array': item('"{text}" 5'),
    'two commas in an array': item('"{text}",,'),
    'a semicolon in an array': item('"{text}";'),
    'a comment that never ends': entry('/* {key} {{ "{text}" }}'),
}


def broken(text, pattern, make):
    """The text with the middle one of the lines that match written otherwise, and the lines that
    are broken, from 1; or none where no line matches."""
    lines = text.split('\n')
    places = [n for n, line in enumerate(lines) if re.match(pattern, line)]
    if not places:
        return None
    place = places[len(places) // 2]
    made = make(*re.match(pattern, lines[place]).groups()).split('\n')
    lines[place:place + 1] = made
    return '\n'.join(lines), range(place + 1, place + 1 + len(made))


def said(command):
    """Whether a command refuses what it is given, and what it says."""
    ran = subprocess.run(command, capture_output=True, stdin=subprocess.DEVNULL, timeout=60,
                         check=False)
    return ran.returncode != 0, (ran.stdout + ran.stderr).decode('utf-8', 'replace')


def names(lines, output):
    """Whether one of these lines is named, or the next one."""
    found = {int(n) for n in re.findall(r'\.txt:(\d+):', output)}
    return any(line in found for line in [*lines, lines[-1] + 1])


def cell(refused, output, lines):
    """What a row says of a program."""
    does = 'refuses' if refused else 'warns' if output.strip() else 'takes'
    return does + (', its line' if names(lines, output) else '')


def main():
    if not PROGRAM.exists() or not shutil.which('genrb'):
        sys.exit('broken_texts: both genrb and the built program are needed')
    counts = {'genrb': 0, 'ours': 0, 'refused': 0}
    with tempfile.TemporaryDirectory() as name:
        folder = pathlib.Path(name)
        cut(folder)
        texts = [printed(folder / it) for it in ('curr/de.res', 'unit/de.res', 'de.res')]
        for kind, (pattern, make) in KINDS.items():
            made = next(filter(None, (broken(it, pattern, make) for it in texts)))
            path = folder / 'broken.txt'
            path.write_text(made[0])
            theirs = said(['genrb', '-q', '-e', 'UTF-8', '-d', name, str(path)])
            ours = said([PROGRAM, 'compile', '--icu', str(path), '-d', name])
            counts['genrb'] += names(made[1], theirs[1])
            counts['refused'] += ours[0]
            counts['ours'] += ours[0] and names(made[1], ours[1])
            print(f'| {kind} | {cell(*theirs, made[1])} | {cell(*ours, made[1])} |')
            if '--all' in sys.argv:
                print(f'{theirs[1]}{ours[1]}')
    print(f'{len(KINDS)} kinds: genrb names the line of {counts["genrb"]}; ours refuses '
          f'{counts["refused"]}, and names the line of {counts["ours"]} of these')


if __name__ == '__main__':
    if sys.argv[1:] == ['--help']:
        sys.exit(print(__doc__))
    main()
