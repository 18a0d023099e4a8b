#!/usr/bin/env python3
"""The table of crates in docs/ARCHITECTURE.md: each crate with the first sentence of its root file,
up to a colon where that leaves four words or more.

  crates.py           prints the table
  crates.py --write   writes it into the page
  crates.py --check   ends with status 1 if the page has another one, or proof_seconds.txt other
                      crates than crates.txt
"""
import pathlib
import re
import sys

TOP = pathlib.Path(__file__).resolve().parent.parent
PAGE = TOP / "docs" / "ARCHITECTURE.md"
HEAD = "| Crate | What it does |\n|---|---|\n"


def named(text):
    """The crates of the lines of crates.txt."""
    for line in text.split("\n"):
        name, colon, _ = line.split("#")[0].partition(":")
        if colon:
            yield name.split()[0]


def crates():
    """The crates of crates.txt without those of tests, lowest first."""
    yield from named((TOP / "crates.txt").read_text(encoding="utf8").split("\n# tests\n")[0])


def unmatched():
    """The crates that stand in one of crates.txt and tests/proof_seconds.txt alone."""
    seconds = (TOP / "tests/proof_seconds.txt").read_text(encoding="utf8").split("\n")
    timed = {line.split()[0] for line in seconds if line and not line.startswith("#")}
    return sorted(timed ^ set(named((TOP / "crates.txt").read_text(encoding="utf8"))))


def sentence(crate):
    """The first sentence of a crate's root file."""
    folder = TOP / "crates" / crate / "src"
    root = next(path for path in (folder / "lib.rt", folder / "main.rt") if path.exists())
    lines = root.read_text(encoding="utf8").split("\n")
    text = " ".join(line[3:].strip() for line in lines if line.startswith("//!"))
    whole = re.match(r".*?[.](?= |$)", text).group()
    clause = re.split(r"[:;] ", whole)[0]
    return whole if len(clause.split()) < 4 else clause.rstrip(".") + "."


def table():
    rows = [f"| `{crate}` | {sentence(crate)} |\n" for crate in crates()]
    return HEAD + "".join(rows)


def main():
    page = PAGE.read_text(encoding="utf8")
    old = re.search(re.escape(HEAD) + r"(?:\|.*\n)*", page)
    if sys.argv[1:] == ["--write"]:
        PAGE.write_text(page.replace(old.group(), table()), encoding="utf8")
    elif sys.argv[1:] == ["--check"]:
        if old is None or old.group() != table():
            print("docs/ARCHITECTURE.md has another table: tests/crates.py --write")
            return 1
        if unmatched():
            print("tests/proof_seconds.txt hasn't the crates of crates.txt:", *unmatched())
            return 1
    else:
        print(table(), end="")
    return 0


if __name__ == "__main__":
    if sys.argv[1:] == ["--help"]:
        sys.exit(print(__doc__))
    sys.exit(main())
