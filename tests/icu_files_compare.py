#!/usr/bin/env python3
"""Compares what texts that take other files in become here and by ICU's genrb. Run by hand, where
genrb and derb are installed and `./prove resb` was run.

    icu_files_compare.py [SOURCE [COUNT]]

Made texts with groups `:process(..)`, `:include` and `:import`, and made files of rules and of
collation rules with quotes, brackets, comments, escapes and line ends in many orders, are compiled
by both programs; the trees have to be equal, as `resb diff` tells, and names of files that aren't
there have to be refused by both. A program that fails, or that doesn't end in ten seconds, has
refused a text: genrb reads on behind a comment that the end of collation rules leaves open. With
the source of ICU's data (`SOURCE/data`, as icu_sources.py fetches it) its texts that have such a
group are compared too.
COUNT says how many made files there are of each kind of rules, 400 if it is left out. A line says
how many were equal.
"""
import argparse
import pathlib
import random
import subprocess
import sys
import tempfile

TOP = pathlib.Path(__file__).resolve().parent.parent
PROGRAM = TOP / 'crates' / 'resb_cli' / 'out' / 'resb_cli'

# what made rules are put together of
PARTS = ['a', ' ', '  ', '\n', '\r\n', '\r', "'", "\\'", '\\', '\\\\', '\\\n', '\\u0061', '\\u0020',
         '\\u002e', '\\u200d', '\\u2028', '\\u00e9', '#', ' # x', '\t', 'é', '😀', ';', '>', '\\u']

# what made collation rules are put together of; no letter stands behind a lone backslash, since
# genrb knows more escapes
COLLATION_PARTS = ['a', ' ', '\t', '\n', '\r\n', '\r', "'", "\\'", '\\\\;', '\\ ', '\\\n', '\\#',
                   '\\[', '\\]', '\\u0061', '\\u0020', '\\u0027', '\\u005B', '\\u005C', '\\u00',
                   '\\U0001F600', '\\U00000023', '\\é', '\\😀', '#', "# ' x\n", '[', ']',
                   "[x # ' y]", 'é', '😀', '\u2028', '\u00a0', '\ufeff', '\0', '<']

# made texts, and whether genrb takes them
TEXTS = [
    ('k:process(dependency){"word.brk"}', True),
    ('b{ x:process(dependency){ "li" "ne.brk" /* c */ } y:process(dependency){z.brk} }', True),
    ('k:process(dependency) /* c */ { // n\n"x" // m\n}', True),
    ('k:process(dependency){"a","b"}', False),
    ('k:process(dependency){}', False),
    ('k:process(dependency){"x"} %%DEPENDENCY{"q"}', False),
    ('k:process(dependency){"x"} a', False),
    ('k:process(dependency){"x"} // }\n', True),
    ('s{":include{rules.txt}"} // :import{"none"}\n', True),
    ('k:include{"rules.txt"} l:include { marked.txt } m:include{"lines.txt"}', True),
    ('k:import{"data.bin"} l{ :import{data.bin}, :include{"rules.txt"} }', True),
    ('k:include{"none.txt"}', False),
    ('k:import{"none.txt"}', False),
    ('k:process(transliterator){"none.txt"}', False),
    ('k:process(uca_rules){"sorted.txt"} l:process(uca_rules) { marked.txt }', True),
    ('k:process(uca_rules){"lines.txt"} l:process(uca_rules){"empty.txt"}', True),
    ('k:process(uca_rules){"none.txt"}', False),
    ('k:process(uca_rules){"comment.txt"}', False),
    ('k:process(uca_rules){"bracket.txt"}', False),
    ('k:Include{"rules.txt"}', False),
    ('k:include{"rules.txt"} k:include{"rules.txt"}', False),
    ('l{ k:process(dependency){"x"} } } m:process(dependency){"y"', True),
    ('k:include{"rules.txt"} } l:include{none.txt', True),
    ('k:process(dependency){"x"} } l "', True),
]
FILES = {
    'rules.txt': b'a "b" \\ c { d } \x01\x7f\n', 'marked.txt': b'\xef\xbb\xbfmarked \xc3\xa9\n',
    'lines.txt': b'one\r\ntwo\rthree\n', 'data.bin': bytes(range(256)), 'empty.txt': b'',
    'sorted.txt': b"& [before 1] a # x\n<' # b'\\u0020\n", 'comment.txt': b'& a # b',
    'bracket.txt': b'& [before',
}


def run(*words, folder):
    """How a program ends that runs in a folder."""
    try:
        return subprocess.run(words, cwd=folder, capture_output=True, check=False, timeout=10)
    except subprocess.TimeoutExpired:
        return subprocess.CompletedProcess(words, 1)


def compiled(folder, name, source):
    """Whether this program takes a text, whether genrb does, and whether their trees are equal."""
    for made in ('ours', 'theirs'):
        (folder / made).mkdir(exist_ok=True)
        for old in (folder / made).glob('*.res'):
            old.unlink()
    ours = run(PROGRAM, 'genrb', '-q', '-s', source, '-d', folder / 'ours', name, folder=folder)
    theirs = run('genrb', '-q', '-e', 'UTF-8', '-C', '-s', source, '-d', folder / 'theirs', name,
                 folder=folder)
    files = [next(iter((folder / made).glob('*.res')), None) for made in ('ours', 'theirs')]
    is_equal = None not in files and run(PROGRAM, 'diff', *files, folder=folder).returncode == 0
    return ours.returncode == 0, theirs.returncode == 0, is_equal


def made_rules(generator, parts):
    """A text of rules that is put together of these."""
    return ''.join(generator.choice(parts) for _ in range(generator.randrange(1, 14))) + ' end\n'


def compare_rules(folder, way, rules, count):
    """Compares a text that takes these rules in, in one way."""
    (folder / 'made.txt').write_text(rules, encoding='utf-8', newline='')
    (folder / 'text.txt').write_text(f'made{{ k:process({way}){{"made.txt"}} }}', encoding='utf-8')
    ours, theirs, is_equal = compiled(folder, 'text.txt', folder)
    count(ours == theirs == is_equal, f'{way}: {rules!r}')


def compare_made(folder, rules_count, count):
    """Compares the made texts, and one with many texts of rules."""
    for name, data in FILES.items():
        (folder / name).write_bytes(data)
    for body, is_taken in TEXTS:
        (folder / 'text.txt').write_text(f'made{{ {body} }}', encoding='utf-8')
        ours, theirs, is_equal = compiled(folder, 'text.txt', folder)
        count(ours == theirs == is_taken and is_equal == is_taken, body)
    generator = random.Random(1)
    for _ in range(rules_count):
        compare_rules(folder, 'transliterator', made_rules(generator, PARTS), count)
        compare_rules(folder, 'uca_rules', made_rules(generator, COLLATION_PARTS), count)


def compare_real(folder, source, count):
    """Compares the texts of ICU's data that have such a group."""
    for text in sorted((source / 'data').glob('*/*.txt')):
        words = text.read_text(encoding='utf-8', errors='replace')
        if any(it in words for it in (':process(', ':include', ':import')):
            ours, theirs, is_equal = compiled(folder, text.name, text.parent)
            count(ours and theirs and is_equal, str(text))


def main():
    """Compares all, and says how many were equal."""
    words = argparse.ArgumentParser(usage=__doc__)
    words.add_argument('source', metavar='SOURCE', type=pathlib.Path, nargs='?')
    words.add_argument('count', metavar='COUNT', type=int, nargs='?', default=400)
    given = words.parse_args()
    counts = [0, 0]

    def count(is_right, what):
        counts[not is_right] += 1
        if not is_right:
            print(f'differs: {what}')

    with tempfile.TemporaryDirectory() as name:
        compare_made(pathlib.Path(name), given.count, count)
        if given.source:
            compare_real(pathlib.Path(name), given.source.resolve(), count)
    print(f'{counts[0]} equal, {counts[1]} differ')
    return counts[1] > 0


if __name__ == '__main__':
    sys.exit(main())
