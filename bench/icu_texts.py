#!/usr/bin/env python3
"""Real texts beside ICU's genrb: compiles each text below folders with both, and counts.

    icu_texts.py [--back] [--compact] [--resb PROGRAM] FOLDER ..

A text is a file whose name ends with .txt; `tests/icu_sources.py` fetches ICU's own. It is compiled
by `genrb -e UTF-8 -C` without a pool bundle, and by `resb compile --icu --no-binary-collation`, the
proved one if no PROGRAM is named; with --compact by `resb compile --icu --compact`. Counted are
texts that both refuse, that genrb alone takes (by our words for it), that we alone take, and, where
both take one, files that are equal, files of one tree and flag that differ, with the reasons that
are found (genrb lets a key lie at the end of a longer one, and records that are alike in size and
in what sharing saves stand in another order), and files of different trees. A text that we alone
take, of another tree, or of one tree in another file for no reason that is found, is listed.
Trees are compared as the prints of ICU's derb, and as the texts of `resb dump --icu`: where derb
prints nothing, by these alone, which is said, and where `resb` refuses genrb's file, since its
strings are of the older form, by derb's. A line says how much processor time all processes of each
program took.
With --back each file that we make is printed by `resb dump --icu` too, that print is compiled by
genrb, and the two trees are compared; what comes back otherwise is listed. At the end a table has a
row for each folder. The status is 1 where anything is listed.
"""
import argparse
import collections
import pathlib
import resource
import struct
import subprocess
import sys
import tempfile

TOP = pathlib.Path(__file__).resolve().parent.parent
PROVED = TOP / "crates" / "resb_cli" / "out" / "resb_cli"
# the seconds after which derb, which goes round for ever on some aliases, prints nothing more
PATIENCE = 10


def run(*words, seconds=600):
    """What a program prints, what it says, and whether it succeeded."""
    ended = subprocess.run(words, stdout=subprocess.PIPE, stderr=subprocess.PIPE, timeout=seconds)
    return ended.stdout, ended.stderr.decode("utf-8", "replace"), ended.returncode == 0


def processor_time():
    """The seconds of processor that the programs took which have ended."""
    used = resource.getrusage(resource.RUSAGE_CHILDREN)
    return used.ru_utime + used.ru_stime


def tree_of(program, file):
    """A file's tree and flag: its text in ICU's form behind the name. None where it has none."""
    text, _, printed = run(program, "dump", "--icu", file)
    return text.removeprefix(file.stem.encode()) if printed else None


def derb_print(file):
    """What derb prints of a file behind its name. None where it prints nothing."""
    try:
        text = run("derb", "-A", "-c", "-s", file.parent, file.name, seconds=PATIENCE)[0]
    except subprocess.TimeoutExpired:
        return None
    return text.partition(b"\n%s" % file.stem.encode())[2] or None


# what two files are that aren't equal
SAME = "equal trees"
SAME_HERE = "equal trees, by resb's reader alone"
DIFFERENT = "different trees"


def beside(program, ours, theirs):
    """What two files are by their trees and flags."""
    prints = derb_print(ours), derb_print(theirs)
    trees = tree_of(program, ours), tree_of(program, theirs)
    pairs = [it for it in (prints, trees) if it[1] is not None]
    if not pairs or any(one != other for one, other in pairs):
        return DIFFERENT
    return SAME if prints[1] is not None else SAME_HERE


ALONE = "refused here alone: "
TAKEN_ALONE = "taken here alone"
OTHER_REASON = "for another reason"


def is_listed(what):
    """Whether it shouldn't come of a text."""
    return what in (TAKEN_ALONE, DIFFERENT) or what.endswith(OTHER_REASON)


def words_of(said):
    """The words of a refusal, without its place."""
    return said.split("\n")[0].split(": ", 1)[-1]


def blocks(file):
    """The keys of a file of the lower byte first, without what fills their last word, and the
    units of its 16-bit block."""
    data = file.read_bytes()
    body = data[int.from_bytes(data[:2], "little"):]
    fields, keys_end, units_end = (int.from_bytes(body[at:at + 4], "little") for at in (4, 8, 28))
    keys = body[4 * (1 + (fields & 0xff)):4 * keys_end].rstrip(b"\xaa")
    block = body[4 * keys_end:4 * units_end]
    return keys, [unit for unit, in struct.iter_unpack("<H", block)]


def records(units):
    """What a 16-bit block holds up to each 0. The strings' records stand first."""
    found, record = [], []
    for unit in units:
        if unit:
            record.append(unit)
        else:
            found.append(tuple(record))
            record = []
    return [*found, tuple(record)]


def are_reordered(ours, theirs):
    """Whether the first records that differ stand further on in the other block each."""
    ones, others = records(ours), records(theirs)
    for at, (one, other) in enumerate(zip(ones, others)):
        if one != other:
            return one in others[at:] and other in ones[at:]
    return False


def reasons(ours, theirs):
    """Why two files of one tree aren't equal."""
    our_keys, our_units = blocks(ours)
    their_keys, their_units = blocks(theirs)
    if len(their_keys) < len(our_keys):
        yield "genrb's keys share endings"
    if are_reordered(our_units, their_units):
        yield "records in another order"


def compare(program, text, folder, took, layout):
    """What comes of a text. Adds what each program took."""
    ours, below = folder / "ours.res", folder / "theirs"
    for old in [ours, *below.glob("*.res")]:
        old.unlink(missing_ok=True)
    start = processor_time()
    words = [program, "compile", "--icu", "--no-binary-collation", *layout, text, "-o", ours]
    said, taken = run(*words)[1:]
    middle = processor_time()
    run("genrb", "-q", "-e", "UTF-8", "-C", "-d", below, text)
    took["resb"] += middle - start
    took["genrb"] += processor_time() - middle
    theirs = next(below.glob("*.res"), None)
    if theirs is None:
        return TAKEN_ALONE if taken else "refused by both"
    if not taken:
        return ALONE + words_of(said)
    if ours.read_bytes() == theirs.read_bytes():
        return "equal files"
    what = beside(program, ours, theirs)
    if what == DIFFERENT:
        return what
    return "%s: %s" % (what, " and ".join(reasons(ours, theirs)) or OTHER_REASON)


def comes_back(program, folder):
    """Whether genrb makes of our print of our file a file of the same tree."""
    ours, below = folder / "ours.res", folder / "theirs"
    for old in below.glob("*.res"):
        old.unlink()
    print_of_ours = folder / "back.txt"
    print_of_ours.write_bytes(run(program, "dump", "--icu", ours)[0])
    run("genrb", "-q", "-e", "UTF-8", "-C", "-d", below, print_of_ours)
    theirs = next(below.glob("*.res"), None)
    return theirs is not None and beside(program, ours, theirs) != DIFFERENT


def compare_all(program, texts, asks_back, layout):
    """The counts of what comes of texts, what is listed, and what each program took."""
    counts, took, listed = collections.Counter(), collections.Counter(), []
    with tempfile.TemporaryDirectory() as made:
        made = pathlib.Path(made)
        (made / "theirs").mkdir()
        for text in texts:
            what = compare(program, text, made, took, layout)
            counts[what] += 1
            if is_listed(what):
                listed.append("%s: %s" % (what, text))
            if asks_back and (made / "ours.res").exists():
                is_back = comes_back(program, made)
                counts["prints that genrb reads as the same tree" if is_back
                       else "prints that genrb reads otherwise"] += 1
                if not is_back:
                    listed.append("another tree by genrb of our print: %s" % text)
    return counts, took, listed


def row(folder, texts, counts):
    """A folder's row of the table."""
    equal = counts["equal files"]
    trees = equal + sum(it for what, it in counts.items() if what.startswith(SAME))
    ours = trees + counts[DIFFERENT]
    alone = [(what.removeprefix(ALONE), it) for what, it in counts.most_common()
             if what.startswith(ALONE)]
    theirs = ours + sum(it for _, it in alone)
    reasons = ", ".join("%d %s" % (it, what) for what, it in alone) or "none"
    columns = [folder, len(texts), theirs, ours + counts[TAKEN_ALONE], trees, equal, reasons]
    return "| %s |" % " | ".join(str(it) for it in columns)


def main():
    words = argparse.ArgumentParser(usage=__doc__)
    words.add_argument("--back", action="store_true")
    words.add_argument("--compact", action="store_const", const=["--compact"], default=[])
    words.add_argument("--resb", type=pathlib.Path, default=PROVED)
    words.add_argument("folders", nargs="+", metavar="FOLDER")
    given = words.parse_args()
    rows, fails = [], False
    for folder in given.folders:
        texts = sorted(pathlib.Path(folder).rglob("*.txt"))
        counts, took, listed = compare_all(
            given.resb.resolve(), texts, given.back, given.compact)
        print(folder)
        for what, count in counts.most_common():
            print("%6d  %s" % (count, what))
        print("resb took %.2f s of processor, genrb %.2f" % (took["resb"], took["genrb"]))
        print(*listed, sep="\n", flush=True)
        rows.append(row(folder, texts, counts))
        fails = fails or bool(listed)
    print("| texts | all | taken by genrb | by resb | one tree | same bytes | refused here alone |")
    print("|---|---|---|---|---|---|---|", *rows, sep="\n")
    return 1 if fails else 0


if __name__ == "__main__":
    sys.exit(main())
