#!/usr/bin/env python3
"""Text to file in one run, row by row: `resb_tool compile IN OUT` beside ICU's `genrb -q`, and
with --resb PROGRAM `resb compile` and `resb compile --icu`, warnings included.

The first table has ICU's own locale data, as `real_texts.py` merges it, and the kinds of
`write_kinds.py` but unsorted keys, on which `genrb` takes half a minute. All programs run in turn.
A cell has the least milliseconds of processor of so many rounds (--turns; for made texts a quarter
of them and three at least, for the smallest three times as many), and the most memory in 10^6
bytes. `time` and `memory` are each program's parts of `genrb`'s. Memory stands as `-` where it is
no more than this script's own, since a process counts that of the one that started it.

`files` says whether the programs and `genrb` write the same bytes, or files that ICU's `derb`
prints as one tree, since `genrb` lets keys share ends. (`derb` prints an empty array as an empty
table, and both forms of the empty string alike.) Other files end the run.

The second table has the growth per tenfold from 1 to 100 MB. A slow second of the machine meets a
long run, and not the least of many short ones. So each run on the greater text stands in a window
of ten on the smaller one, five in front of it and five behind, and is divided by their mean, and by
a tenth of what the greater text's size is of the smaller one's. The middle one of so many windows
(--windows) is the row's, and all of them stand behind it.

A whole run takes some five minutes.
"""
import argparse
import os
import pathlib
import resource
import shutil
import statistics
import subprocess
import sys
import tempfile

from timing import least, make

BENCH = pathlib.Path(__file__).resolve().parent
PROGRAM = BENCH.parent / 'crates/resb_tool/out/resb_tool'
REAL = ['locales', 'unit', 'zone', 'lang', 'curr']
GROWING = ['tables nested three levels', 'short strings, half ends of others',
           'one letter, all lengths', 'short vectors']
MADE = {
    'tables nested three levels': 12000000,
    'short strings, half ends of others': 14000000,
    'one letter, all lengths': 12500000,
    'short vectors': 20000000,
    'distinct last letters': 140000,
}


def printed(file):
    """The tree of a file as `derb` prints it, without the comments that name the file."""
    command = ['derb', '-s', str(file.parent.resolve()), '-A', '-c', file.name]
    said = subprocess.run(command, stdout=subprocess.PIPE, check=True).stdout
    # where it can't open the file, `derb` prints nothing and ends with status 0
    if not said:
        sys.exit(f'derb prints nothing of {file}')
    return [line for line in said.split(b'\n') if not line.startswith(b'//')]


def likeness(ours, theirs):
    """What two files have in common."""
    if ours.read_bytes() == theirs.read_bytes():
        return 'same bytes'
    with tempfile.TemporaryDirectory() as name:
        # `derb` takes the root's name from that of the file
        copy = pathlib.Path(shutil.copyfile(ours, pathlib.Path(name) / theirs.name))
        if printed(copy) == printed(theirs):
            return 'same tree'
    sys.exit(f'{ours} and {theirs} are of two trees')


def likenesses(files, theirs):
    """What each of the files has in common with `genrb`'s. Another process looks, since this one's
    memory would count for all that it starts from then on."""
    found = []
    for file in files:
        command = [sys.executable, __file__, '--likeness', file, theirs]
        run = subprocess.run(command, stdout=subprocess.PIPE, text=True)
        if run.returncode != 0:
            sys.exit(run.returncode)
        found.append(run.stdout.strip())
    return ', '.join(dict.fromkeys(found))


def megabytes(memory):
    """So many bytes, or `-` where this process has as many."""
    own = resource.getrusage(resource.RUSAGE_SELF).ru_maxrss * 1024
    return f'{memory / 1e6:.0f} MB' if memory > own * 1.05 else '-'


def beside_genrb(programs, name, text, turns, folder):
    """A row: the least time and the most memory of each program and of `genrb`."""
    theirs = pathlib.Path(tempfile.mkdtemp(dir=folder))
    files = [folder / f'{number}.res' for number in range(len(programs))]
    commands = [[*words, text, *behind, file]
                for (_, words, behind), file in zip(programs, files)]
    commands.append(['genrb', '-q', '-d', theirs, text])
    times, most = [[] for _ in commands], [0 for _ in commands]
    for _ in range(turns):
        for which, command in enumerate(commands):
            took, memory, status = least(command, 1, folder=folder)
            if status != 0:
                sys.exit(f'{command}: status {status}')
            times[which].append(took)
            most[which] = max(most[which], memory)
    cells = [f'{name}, {os.path.getsize(text) / 1e6:.2f} MB']
    cells += [f'{min(took):.1f} ms, {megabytes(memory)}' for took, memory in zip(times, most)]
    told = all(megabytes(memory) != '-' for memory in most)
    cells += [', '.join(f'{min(took) / min(times[-1]):.3f}' for took in times[:-1])]
    cells += [', '.join(f'{memory / most[-1]:.2f}' for memory in most[:-1]) if told else '-']
    cells += [likenesses(files, *theirs.glob('*.res'))]
    print('| ' + ' | '.join(cells) + ' |', flush=True)


def window(program, small, great, folder):
    """What the greater text takes of the smaller one, whose runs stand around it."""
    def took(text):
        return least([program, 'compile', text, 'ours.res'], 1, folder=folder)[0]

    front = [took(small) for _ in range(5)]
    middle = took(great)
    behind = [took(small) for _ in range(5)]
    return middle / statistics.mean(front + behind)


def grows(program, kind, windows, folder):
    """A row: the growth per tenfold from 1 to 10 and from 10 to 100 MB."""
    texts = []
    for size in (10 ** 6, 10 ** 7, 10 ** 8):
        texts.append(str(folder / f'{size}.txt'))
        make(str(BENCH / 'write_kinds.py'), kind, size, texts[-1])
    row = f'| {kind}'
    for small, great in zip(texts, texts[1:]):
        tenth = os.path.getsize(great) / os.path.getsize(small) / 10
        found = sorted(window(program, small, great, folder) / tenth for _ in range(windows))
        row += f' | {statistics.median(found):.1f} ({" ".join(f"{x:.1f}" for x in found)})'
    print(row + ' |', flush=True)


def beside(programs, turns, folder):
    """The first table."""
    subprocess.run([sys.executable, BENCH / 'real_texts.py', '--make', folder],
                   stdout=subprocess.DEVNULL, check=True)
    columns = ['Text', *[name for name, _, _ in programs], '`genrb`', 'time', 'memory', 'files']
    print('| ' + ' | '.join(columns) + ' |\n' + '|---' * len(columns) + '|', flush=True)
    for real in REAL:
        beside_genrb(programs, real, str(folder / f'{real}.txt'), turns, folder)
    for kind, size in MADE.items():
        text = str(folder / 'made.txt')
        make(str(BENCH / 'write_kinds.py'), kind, size, text)
        rounds = turns * 3 if size < 10 ** 6 else max(3, turns // 4)
        beside_genrb(programs, kind, text, rounds, folder)


def options():
    def count(word):
        if int(word) < 1:
            raise argparse.ArgumentTypeError('one at least is wanted')
        return int(word)

    parser = argparse.ArgumentParser(
        description=__doc__, formatter_class=argparse.RawDescriptionHelpFormatter)
    parser.add_argument('--program', default=PROGRAM, help='the program (./prove builds it)')
    parser.add_argument('--older', help='an older program, timed in the same rounds')
    parser.add_argument('--resb', help='the program resb, timed in the same rounds in both forms')
    parser.add_argument('--turns', type=count, default=12,
                        help="rounds for ICU's texts (default 12)")
    parser.add_argument('--windows', type=count, default=5,
                        help='windows of each row of growth (default 5)')
    parser.add_argument('--likeness', nargs=2, type=pathlib.Path, metavar=('OURS', 'THEIRS'),
                        help='says what two files have in common, and times nothing')
    return parser.parse_args()


def main():
    given = options()
    if given.likeness:
        return print(likeness(*given.likeness))
    programs = [(name, [os.path.abspath(one), 'compile', *words], behind)
                for name, one, words, behind in (
                    ('`resb_tool`', given.program, [], []), ('older', given.older, [], []),
                    ('`resb compile`', given.resb, [], ['-o']),
                    ('with `--icu`', given.resb, ['--icu'], ['-o'])) if one]
    for needed in (*[words[0] for _, words, _ in programs], 'genrb', 'derb'):
        if not shutil.which(needed):
            sys.exit(f'{needed} is no program')
    with tempfile.TemporaryDirectory() as name:
        folder = pathlib.Path(name)
        beside(programs, given.turns, folder)
        print('\n| Text | 1 to 10 MB | 10 to 100 MB |\n|---|---|---|', flush=True)
        for kind in GROWING:
            grows(programs[0][1][0], kind, given.windows, folder)


main()
