#!/usr/bin/env python3
"""What is promised, by crate: each public call that has a contract, with its documentation, whose
sentences the contract carries, and each law with its sentence. All is made from the sources.

  promises.py [CRATE..]              prints the calls of these crates, or of all but those of tests
  promises.py --contracts [CRATE..]  prints each contract too, in the logic's words
"""
import pathlib
import re
import signal
import sys

TOP = pathlib.Path(__file__).resolve().parent.parent
IMPL = re.compile(r"^impl(?:<[^{]*?>)? (?:(?P<of>.+?) for )?(?P<type>\w+)")
CALL = re.compile(r"^( *)pub (?:extern \"C\" )?fn (\w+)")


def crates():
    """The crates of crates.txt without those of tests, lowest first."""
    for line in (TOP / "crates.txt").read_text(encoding="utf8").split("\n# tests\n")[0].split("\n"):
        name, colon, _ = line.split("#")[0].partition(":")
        if colon:
            yield name.split()[0]


def above(lines, at):
    """The documentation above a line, behind which attributes may stand."""
    found = []
    for line in reversed(lines[:at]):
        if line.strip().startswith("///"):
            found.append(line.strip()[3:].strip())
        elif not line.strip().startswith("#["):
            break
    return list(reversed(found))


def contract(lines, at):
    """The clauses of the call that begins at a line."""
    found, inside = [], False
    for line in lines[at + 1:]:
        if re.match(r" *(?:requires|ensures|ghost)\b", line):
            inside = True
        if re.match(r" *\{(?:\})?$", line) or line.strip() == "{}":
            break
        if inside:
            found.append(line.strip())
    return found


def calls(path):
    """The public calls of a file that have a contract: name, documentation, clauses."""
    lines = path.read_text(encoding="utf8").split("\n")
    owner = None
    for at, line in enumerate(lines):
        impl = IMPL.match(line)
        if impl:
            owner = impl["type"]
        elif line == "}":
            owner = None
        call = CALL.match(line)
        clauses = call and contract(lines, at)
        if clauses:
            name = f"{owner}::{call[2]}" if owner and call[1] else call[2]
            yield name, above(lines, at), clauses


def show(crate, with_contracts):
    """Prints the promises of a crate."""
    shown = False
    for path in sorted((TOP / "crates" / crate / "src").rglob("*.rt")):
        for name, text, clauses in calls(path):
            if not shown:
                print(f"## `{crate}`\n")
                shown = True
            print(f"### `{name}`\n")
            print("\n".join(text) + "\n")
            if with_contracts:
                print("".join(f"    {clause}\n" for clause in clauses))


def main():
    words = sys.argv[1:]
    with_contracts = words[:1] == ["--contracts"]
    words = words[1:] if with_contracts else words
    known = list(crates())
    for word in words:
        if word not in known:
            print(f"promises.py: there is no crate `{word}`", file=sys.stderr)
            return 2
    for crate in words or known:
        show(crate, with_contracts)
    return 0


if __name__ == "__main__":
    signal.signal(signal.SIGPIPE, signal.SIG_DFL)
    if sys.argv[1:] == ["--help"]:
        sys.exit(print(__doc__))
    sys.exit(main())
