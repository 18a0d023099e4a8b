#!/usr/bin/env python3
"""Compares `resb genrb` with ICU's `genrb` on random texts of ICU's form and near it.

    icu_made.py [COUNT [SEED]] [--resb PROGRAM] [--show KIND]

Run by hand where ICU's tools are installed. Both compile each text, `resb` with --compact. The
texts are those of icu_compare.py, with every escape and every spelling of a number, and text behind
the bundle. A line for each kind counts the texts: taken by both with the same bytes (`same`), taken
by both with the same tree (`tree`), refused by both (`refused`), taken by one alone (`genrb`,
`resb`), or taken with another tree (`other`), which fails. --show prints the texts of a kind.
"""
import argparse
import collections
import concurrent.futures
import os
import pathlib
import shutil
import subprocess
import sys
import tempfile

import icu_compare

TOP = pathlib.Path(__file__).resolve().parent.parent
RESB = TOP / 'crates/resb_cli/out/resb_cli'
ESCAPES = icu_compare.RIGHT_ESCAPES + icu_compare.OTHER_ESCAPES + [
    '\\a', '\\b', '\\e', '\\f', '\\v', '\\cA', '\\c?', '\\x4', '\\x{41}', '\\7', '\\177', '\\400',
    '\\ud84d\\udc56', '\\ud84d', '\\uDC00', '\\z', '\\%', '\\ ']
NUMBERS = icu_compare.NUMBERS + icu_compare.OTHER_NUMBERS + [
    '010', '0777', '08', '0x7f', '0XFF', '"0x10"', '""', '"-5"', '- 1', '+0x1', '"+7"', '00']
# what stands behind a bundle: all but the last four may
BEHIND = [
    ' ', '\n', 'x', ' y ', '{', '}', ',', ':', ':int{08}', '"', '"z', '""', '/', '//', '// w\n',
    '*/', '\ufeff', '\u2029', '\ufffe', '\0', 'é', '\U0001f600', 'c{k{v}}', '\r', '\t', '+', "'",
    '$', '\\', '/*', '/* v */', '\\q']


class Texts(icu_compare.Texts):
    """Random texts whose strings and numbers are spelled in every way."""

    def text(self):
        text = super().text()
        if self.few(0.2):
            text += ''.join(self.one(BEHIND) for _ in range(self.one([1, 2, 4, 8]))).encode()
        return text

    def number(self):
        return self.one(NUMBERS)

    def piece(self):
        plain = ['a', 'b', ' ', 'é', '{', '}', ',', ':', 'x', '$']
        count = self.one([0, 1, 1, 2, 3])
        parts = [self.one(ESCAPES if self.few(0.4) else plain) for _ in range(count)]
        return '"%s"' % ''.join(parts)

    def string(self):
        if self.few(0.4):
            return self.word()
        runs = [self.piece() if self.few(0.7) else self.word()
                for _ in range(self.one([1, 1, 1, 2, 3]))]
        return self.one(['', ' ', '\n']).join(runs)


def made_by(command, folder, name):
    """The file that a compiler makes of a text, or nothing."""
    out = f'{folder}/{name}'
    os.mkdir(out)
    subprocess.run([*command, '-q', '-s', folder, '-d', out, 't.txt'],
                   stdout=subprocess.DEVNULL, stderr=subprocess.DEVNULL)
    files = [f'{out}/{it}' for it in os.listdir(out)]
    return files[0] if files else None


def kind_of(text, resb, folder):
    """How the two answer a text."""
    os.mkdir(folder)
    pathlib.Path(f'{folder}/t.txt').write_bytes(text)
    theirs = made_by(['genrb'], folder, 'theirs')
    ours = made_by([resb, 'genrb', '--compact', '-C'], folder, 'ours')
    if not theirs or not ours:
        kind = 'genrb' if theirs else 'resb' if ours else 'refused'
    elif pathlib.Path(theirs).read_bytes() == pathlib.Path(ours).read_bytes():
        kind = 'same'
    else:
        differs = subprocess.run([resb, 'diff', theirs, ours], stdout=subprocess.DEVNULL)
        kind = 'other' if differs.returncode else 'tree'
    shutil.rmtree(folder)
    return kind


def main():
    parser = argparse.ArgumentParser(description=__doc__)
    parser.add_argument('count', type=int, nargs='?', default=1000)
    parser.add_argument('seed', type=int, nargs='?', default=1)
    parser.add_argument('--resb', default=str(RESB))
    parser.add_argument('--show')
    words = parser.parse_args()
    made, resb = Texts(words.seed), os.path.abspath(words.resb)
    texts = [made.text() for _ in range(words.count)]
    with tempfile.TemporaryDirectory() as folder, \
            concurrent.futures.ThreadPoolExecutor(2) as pool:
        kinds = list(pool.map(lambda it: kind_of(it[1], resb, f'{folder}/{it[0]}'),
                              enumerate(texts)))
    for text, kind in zip(texts, kinds):
        if kind == words.show:
            print(kind, repr(text.decode(errors='replace')))
    counts = collections.Counter(kinds)
    print(', '.join(f'{count} {kind}' for kind, count in sorted(counts.items())))
    print(f'{len(texts) - counts["other"]} passed, {counts["other"]} failed')
    return 1 if counts['other'] else 0


if __name__ == '__main__':
    sys.exit(main())
