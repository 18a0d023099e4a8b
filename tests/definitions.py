#!/usr/bin/env python3
"""The definitions, read aloud: each definition of crates/*/specs with the comment that stands above
it, by crate and file. Words of private functions (specs/Inner) aren't among them.

  definitions.py              prints a table for each crate, in the order of crates.txt
  definitions.py CRATE ..     those of these crates
  definitions.py --missing    lists the definitions that have no comment above them
"""
import pathlib
import re
import signal
import sys

from trust import CRATES, PROOFS, TOP, Specs


def crates():
    """The crates of crates.txt, in its order."""
    for line in (TOP / "crates.txt").read_text(encoding="utf8").split("\n"):
        name = line.split("#")[0].split(":")[0].split()
        if name:
            yield name[0]


def definitions(specs, crate):
    """The definitions of a crate that public clauses may cite, in the order of its files."""
    found = [each for each in specs.definitions.values()
             if each.path.is_relative_to(CRATES / crate / "specs")
             and "Inner" not in each.path.parts and each.path.stem not in PROOFS]
    return sorted(found, key=lambda each: (str(each.path), each.line))


def comment_of(definition):
    """The comment right above a definition, on one line."""
    lines = definition.path.read_text(encoding="utf8").split("\n")
    said, at = [], definition.line - 2
    while at >= 0 and lines[at].strip().startswith("--"):
        said.insert(0, lines[at].strip().lstrip("-").strip())
        at -= 1
    return re.sub(r"\s+", " ", " ".join(said)).replace("|", "\\|")


def section(specs, crate):
    rows = [f"| `{each.name}` | {comment_of(each)} | `{file_of(each)}` |"
            for each in definitions(specs, crate)]
    if not rows:
        return ""
    return "\n".join([f"## `{crate}`", "", "| Definition | In words | Stands in |", "|---|---|---|",
                      *rows, ""])


def file_of(definition):
    return pathlib.PurePath(*definition.path.relative_to(CRATES).parts[2:]).with_suffix("")


def main():
    specs = Specs()
    words = sys.argv[1:]
    if words == ["--missing"]:
        bare = [each for crate in crates() for each in definitions(specs, crate)
                if not each.commented]
        for each in bare:
            print(f"{each.path.relative_to(TOP)}:{each.line}: {each.name}")
        return 1 if bare else 0
    unknown = [word for word in words if word not in set(crates())]
    if unknown:
        print(f"definitions.py: no crate is named {unknown[0]}", file=sys.stderr)
        return 2
    print("\n".join(filter(None, (section(specs, crate) for crate in words or crates()))))
    return 0


if __name__ == "__main__":
    if sys.argv[1:] == ["--help"]:
        sys.exit(print(__doc__))
    signal.signal(signal.SIGPIPE, signal.SIG_DFL)
    sys.exit(main())
