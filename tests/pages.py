#!/usr/bin/env python3
"""The pages: what they show is so, and they keep their rules. The last line counts.

Each block marked `rust` stands in a source of crates/, so that the gate proves it. Each command
that is shown with its answer (a line that begins with `$`) is run, and answers that. The table of
docs/TRUST.md is the one that trust.py makes, that of docs/ARCHITECTURE.md is crates.py's, and every
definition has its words.

Refused are more words than README and all pages together may have; a date, but in the rows of a
table of runs; a line of prose that is too long; a name of code that no source has; and a file that
isn't there.
"""
import pathlib
import re
import subprocess
import sys
import tempfile

TOP = pathlib.Path(__file__).resolve().parent.parent
TESTS = TOP / "tests"

# the most words of README, by `wc -w`, and of all pages together
README_WORDS = 900
ALL_WORDS = 30000
LONGEST_LINE = 300

# the pages whose tables have rows of runs, each with its date
PAGES_OF_RUNS = {"CONTRIBUTING.md", "docs/TESTED.md", "bench/README.md"}
DATE = re.compile(
    r"\b\d{4}-\d\d-\d\d\b|\b(?:January|February|March|April|May|June|July|August|September|October"
    r"|November|December)\s+(?:\d{1,2},?\s+)?\d{4}\b")

# names that are not this repository's: the Rust crate's, ICU's, the toolchain's, and those of
# examples
FOREIGN = {
    "non_exhaustive", "PotentialUtf16", "serde", "include_bytes_as_u32", "AlignedAs",
    "CollationBin", "bnf_rb", "langInfo", "te_IN", "start_lib", "my_reader", "the_lie_it_tells",
    "IsX", "x_of", "uca_rules",
}


def squeezed(text):
    """A text without the blanks that differ by where it stands."""
    return re.sub(r"\s+", " ", text).strip()


def blocks(text):
    return re.findall(r"^```rust\n(.*?)^```$", text, re.M | re.S)


def sessions(text):
    """The indented blocks that begin with a command, as commands with what each answers."""
    for block in re.findall(r"(?:^    .*\n|^\n(?=    ))+", text, re.M):
        lines = [line[4:] for line in block.split("\n")]
        if not any(line.startswith("$ ") for line in lines):
            continue
        commands = []
        for line in lines:
            if line.startswith("$ "):
                commands.append((line[2:], []))
            elif commands and line.strip():
                commands[-1][1].append(line)
        yield commands


def sources():
    """The files in which a name of code may stand."""
    for pattern in ("crates/*/src/**/*.rt", "crates/*/specs/**/*.antt", "crates/*/proofs/**/*.antt",
                    "crates/*/must-fail/*", "crates/*/wrong-bodies/*", "tests/*", "bench/*",
                    "include/*", "examples/*/*", "crates.txt", "run", "test", "prove", "resb"):
        for path in TOP.glob(pattern):
            if path.is_file() and path.suffix != ".md" and path != TESTS / "pages.py":
                yield path


def known_names():
    """Every word of those files and of their paths, and the files' names."""
    known = {"pages.py"}
    for path in sources():
        known |= set(re.findall(r"\w+", path.read_text(encoding="utf8")))
        known |= {path.name, *re.findall(r"\w+", str(path.relative_to(TOP)))}
    return known


def prose(text):
    """The lines of a page that are no code, each with its number."""
    fenced = False
    for number, line in enumerate(text.split("\n"), 1):
        if line.startswith("```"):
            fenced = not fenced
        elif not fenced and not line.startswith("    "):
            yield number, line


def spans(line):
    """The pieces of code in a line of prose."""
    return [found.group(1) or found.group(2)
            for found in re.finditer(r"``(.+?)``|`([^`]+)`", line)]


def names(span):
    """The words of a piece of code that look like names of code."""
    for word in re.findall(r"[A-Za-z_]\w*", span):
        if "_" in word.strip("_") or "::" in span or re.search(r"[a-z0-9][A-Z]", word):
            yield word


def is_missing(span, known):
    """Whether a piece of code names a file of this repository that isn't there. A path may begin
    with a crate, and a file of specs/ or proofs/ may go without its ending."""
    if (FOREIGN | {"NAME", "MODULE", "FUNCTION", "CRATE"}) & set(re.findall(r"\w+", span)):
        return False
    named = re.fullmatch(r"[\w./-]*?([\w-]+\.(?:antt|rt|rattle|py|sh|edit))", span)
    if named and named.group(1) not in known:
        return True
    found = re.fullmatch(r"(?:(?:crates|docs|tests|bench|include|examples)/|(resb\w*)/)[\w./-]+",
                         span)
    if not found:
        return False
    path = f"crates/{span}" if found.group(1) else span
    return not any((TOP / f"{path}{ending}").exists() for ending in ("", ".antt", ".rt"))


def refusals(page, text, known):
    """What a page is refused for, a list for each rule, named."""
    shown = list(prose(text))
    count = len(text.split())
    allowed = page in PAGES_OF_RUNS
    if page == "README.md":
        yield "words", [f"{page}: {count} words, and at most {README_WORDS} are allowed"
                        ] if count > README_WORDS else []
    yield "dates", [f"{page}:{number}: a date: {line.strip()[:60]}"
                    for number, line in enumerate(text.split("\n"), 1)
                    if DATE.search(line) and not (allowed and line.startswith("|"))]
    yield "lines", [f"{page}:{number}: {len(line)} characters, one sentence a line"
                    for number, line in shown
                    if len(line) > LONGEST_LINE and not line.startswith("|")]
    yield "names", [f"{page}:{number}: no source has `{name}`"
                    for number, line in shown for span in spans(line)
                    for name in dict.fromkeys(names(span))
                    if name not in known and name not in FOREIGN]
    yield "files", [f"{page}:{number}: no file is named `{span}`"
                    for number, line in shown for span in spans(line)
                    if is_missing(span, known)]


def answers(command, wanted, folder):
    """What a command answers, if it isn't what is wanted."""
    run = subprocess.run(["bash", "-c", command], cwd=folder, text=True, stdout=subprocess.PIPE,
                         stderr=subprocess.STDOUT)
    return None if run.stdout.rstrip("\n") == "\n".join(wanted) else run.stdout


class Count:
    """How many checks passed, and what the others say."""

    def __init__(self):
        self.passed, self.failed = 0, []

    def add(self, said):
        """A check that passed, or what is said of one that failed."""
        if said:
            self.failed += [said] if isinstance(said, str) else said
        else:
            self.passed += 1


def check_rules(count, pages):
    known = known_names()
    for page, text in pages.items():
        for _, said in refusals(page, text, known):
            count.add(said)
    words = sum(len(text.split()) for text in pages.values())
    count.add(words > ALL_WORDS and f"{words} words in all, and at most {ALL_WORDS} are allowed")


def check_code(count, pages):
    code = [squeezed(path.read_text(encoding="utf8"))
            for path in (TOP / "crates").glob("*/src/**/*.rt")]
    for page, text in pages.items():
        for block in blocks(text):
            count.add(not any(squeezed(block) in source for source in code)
                      and f"{page}: no source has the block\n{block}")
        for commands in sessions(text):
            with tempfile.TemporaryDirectory() as folder:
                for name in ("run", "resb"):
                    if (TOP / name).exists():
                        (pathlib.Path(folder) / name).symlink_to(TOP / name)
                for command, wanted in commands:
                    other = answers(command, wanted, folder)
                    count.add(other is not None and f"{page}: {command}\n{other}")


def check_tables(count):
    for words in (["trust.py", "--check"], ["definitions.py", "--missing"], ["signatures.py"],
                  ["crates.py", "--check"], ["promises.py"], ["../bench/picture.py", "--check"]):
        run = subprocess.run([sys.executable, TESTS / words[0], *words[1:]],
                             stdout=subprocess.PIPE, text=True)
        count.add(run.returncode != 0 and " ".join(words) + "\n" + run.stdout)


def main():
    if sys.argv[1:] not in ([], ["--rules"]):
        print("pages.py: its one word is --rules, by which nothing of the pages is run",
              file=sys.stderr)
        return 2
    folders = ("", "docs/", "bench/", "examples/*/", "crates/*/")
    paths = [path for folder in folders for path in TOP.glob(f"{folder}*.md")]
    pages = {str(path.relative_to(TOP)): path.read_text(encoding="utf8") for path in sorted(paths)}
    count = Count()
    check_rules(count, pages)
    check_tables(count)
    if not sys.argv[1:]:
        check_code(count, pages)
    for each in count.failed:
        print("failed: " + each)
    print(f"{count.passed} passed, {len(count.failed)} failed")
    return 1 if count.failed else 0


if __name__ == "__main__":
    if sys.argv[1:] == ["--help"]:
        sys.exit(print(__doc__))
    sys.exit(main())
