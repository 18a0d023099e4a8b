#!/usr/bin/env python3
"""What one has to read to trust a promise, by claim: the definitions that the clauses of its calls
cite, and those that these cite, in lines of definitions alone (no comments, imports or blanks).

  trust.py            the table of docs/TRUST.md
  trust.py --check    status 1 where that table stands otherwise in docs/TRUST.md
  trust.py --bare     the trusted definitions that have no comment line of their own
  trust.py --of NAME  the definitions below one claim, each with its file and its lines
"""
import argparse
import functools
import pathlib
import re
import sys

from signatures import libraries

TOP = pathlib.Path(__file__).resolve().parent.parent
CRATES = TOP / "crates"
PAGE = TOP / "docs" / "TRUST.md"

# a claim, and its calls: file, function, and the clauses that are meant (none named: all)
CLAIMS = [
    ("a text is accepted only as the bundle that it is",
     [("resb/src/headline.rt", "read_text", ["ok"])]),
    ("why a text is refused, and that it is then no bundle",
     [("resb/src/headline.rt", "read_text", ["stuck", "no_bundle"])]),
    ("a tree is read exactly where the bytes denote it",
     [("resb/src/headline.rt", "read_tree", [])]),
    ("what `to_bytes` writes and refuses", [("resb/src/headline.rt", "write_bundle", [])]),
    ("the headline: all of `resb::headline`", [("resb/src/headline.rt", "", [])]),
    ("all that `resb` exports", [("*", "", [])]),
]

WORD = re.compile(r"[^\s(){}\[\],;.⟦⟧]+(?:\.[^\s(){}\[\],;.⟦⟧]+)*")
ITEM = re.compile(r"^(\s*)(?:unfoldable )?(?:abbrev )?(?:unfoldable )?pub (?:unfoldable )?"
                  r"(?:(record|data|abbrev) )?"
                  r"([^\s:({]+)")
USE = re.compile(r"^\s*(?:pub )?(?:ghost )?use ([\w.]+?)(?:\.\{([^}]*)\}| as (\w+))?;?\s*$")


def words_of(text):
    """The names in a piece of text, each with the names in front of its dots."""
    return set(WORD.findall(text))


def module_of(path):
    """The module that a file of specs/ is, as an import names it."""
    parts = path.relative_to(CRATES).with_suffix("").parts
    return "Rattle." + ".".join(parts)


def imports_of(lines):
    """By the name under which each is known: the module and the name there ('' for a module)."""
    known = {}
    for line in join_uses(lines):
        found = USE.match(line)
        if not found:
            continue
        module, names, alias = found.groups()
        if names is not None:
            for name in filter(None, (part.strip() for part in names.split(","))):
                source, _, here = name.partition(" as ")
                known[(here or source).strip()] = (module, source.strip())
        else:
            known[alias or module.rpartition(".")[2]] = (module, "")
    return known


def join_uses(lines):
    """Each import on one line."""
    whole = ""
    for line in lines:
        if whole:
            whole += " " + line.strip()
        elif re.match(r"^\s*(pub )?(ghost )?use ", line):
            whole = line.rstrip()
        else:
            continue
        if whole.count("{") == whole.count("}"):
            yield re.sub(r"\s+", " ", whole).strip()
            whole = ""


class Definition:
    """A definition of specs/: where it stands, its text, and whether a comment stands above it."""

    def __init__(self, path, name, line, commented):
        self.path, self.name, self.line, self.commented = path, name, line, commented
        self.body = []
        self.words = set()

    @property
    def size(self):
        return len(self.body)


class Specs:
    """All definitions of specs/, by module and name; constructors and fields by the module too."""

    def __init__(self):
        self.imports, self.definitions, self.inner = {}, {}, {}
        for path in sorted(CRATES.glob("*/specs/**/*.antt")):
            if "out" not in path.relative_to(CRATES).parts:
                self.read(path)

    def read(self, path):
        lines = path.read_text(encoding="utf8").split("\n")
        module = module_of(path)
        self.imports[module] = imports_of(lines)
        current, comment, in_use = None, False, False
        for number, line in enumerate(lines, 1):
            text = line.strip()
            if in_use or re.match(r"^(pub )?(use|mod) ", text):
                in_use = line.count("{") > line.count("}") if not in_use else "}" not in line
                comment = False
                continue
            if text.startswith("--"):
                comment = True
                continue
            if not text:
                comment = False
                continue
            item = ITEM.match(line)
            if item and not self.is_field(current, line):
                current = Definition(path, item.group(3), number, comment)
                self.definitions[(module, current.name)] = current
            elif re.match(r"^\s*(module\b.*where|(abbrev )?mutual)\s*$", line) or (
                    text.startswith("module ")):
                current = None
            if current:
                current.body.append(text)
                current.words |= words_of(text)
                self.note_inner(module, current, line)
            comment = False

    def is_field(self, current, line):
        """Whether a line with 'pub' is a field of the record that is being read."""
        if not current or not current.body:
            return False
        first = current.body[0]
        if not re.search(r"\brecord\b|\bdata\b", first):
            return False
        indent = len(line) - len(line.lstrip())
        return indent > current.indent

    def note_inner(self, module, definition, line):
        """Constructors and fields are known by the definition that they stand in."""
        indent = len(line) - len(line.lstrip())
        if len(definition.body) == 1:
            definition.indent = indent
            return
        found = re.match(r"^\s+(?:pub )?([^\s:({]+) :", line)
        if found and re.search(r"\brecord\b|\bdata\b", definition.body[0]):
            self.inner.setdefault((module, found.group(1)), definition)

    def find(self, module, name):
        """The definition that a name of a module is, through what the module passes on."""
        for key in ((module, name),):
            if key in self.definitions:
                return self.definitions[key]
            if key in self.inner:
                return self.inner[key]
        known = self.imports.get(module, {}).get(name)
        if known and known[1] and known[0] != module:
            return self.find(*known)
        return None

    def resolve(self, module, imports, word):
        """The definitions that a word of a module means."""
        head, _, rest = word.partition(".")
        found = []
        if head in imports:
            source, name = imports[head]
            if name:
                found.append(self.find(source, name))
            elif rest:
                found.append(self.find(source, rest.split(".")[0]))
        elif module:
            found.append(self.find(module, head))
        return [definition for definition in found if definition]

    def closure(self, roots):
        """The definitions that these stand on, themselves included."""
        seen, left = {}, list(roots)
        while left:
            definition = left.pop()
            key = (definition.path, definition.name)
            if key in seen or definition.path.stem in PROOFS:
                continue
            seen[key] = definition
            module = module_of(definition.path)
            for word in definition.words:
                left += self.resolve(module, self.imports[module], word)
        return sorted(seen.values(), key=lambda each: (str(each.path), each.line))


# Files of specs/ that hold proofs of laws, and say nothing to be trusted.
PROOFS = ("TypeLaws", "ZoneLaws", "FieldLaws", "EqualityLemmas", "Pointing")

CLAUSE = re.compile(r"^\s*(?:pub )?(ensures|requires|ghost)\b\s*([a-z_]*)")


def clauses_of(lines):
    """The clauses of a file of code: the function and the impl that each stands in, whether these
    are public, its label and its text."""
    function, around, public, depth, clause, in_head = "", "", False, 0, None, False
    for line in lines:
        if re.match(r"^(pub )?(impl|trait|struct|enum)\b", line):
            function, around, public, in_head = "", line, True, True
        elif in_head:
            around += " " + line.strip()
        elif line.startswith("}"):
            around = ""
        in_head = in_head and "{" not in line
        if around.endswith("{}"):
            around = ""
        found = re.match(r"^\s*(pub )?(?:pub\([a-z]+\) )?(?:const )?fn ([a-z_0-9]+)", line)
        if found:
            function = found.group(2)
            public = bool(found.group(1)) or " for " in around or "trait " in around
        begins = CLAUSE.match(line)
        if depth == 0 and begins and "ghost use" not in line:
            clause = [function, around, public, begins.group(2), ""]
        elif depth == 0:
            clause = None
        if clause:
            clause[4] += line + "\n"
            depth += line.count("{") - line.count("}")
            if depth == 0 and "{" in clause[4]:
                yield tuple(clause)
                clause = None


@functools.lru_cache
def declared():
    """The names of the types and traits of all crates, public or not."""
    names = set()
    for path in CRATES.glob("*/src/**/*.rt"):
        text = path.read_text(encoding="utf8")
        kinds = r"^\s*(?:pub(?:\([a-z]+\))? )?(?:struct|enum|trait|type) (\w+)"
        names |= set(re.findall(kinds, text, re.M))
    return names


def bare(head):
    """The head of an item without what stands in angle brackets."""
    before = None
    while before != head:
        before, head = head, re.sub(r"<[^<>]*>", "", head)
    return head.replace("->", "").partition("{")[0].partition(" where")[0]


def is_met(name, around, types, own):
    """Whether who has these names alone can call a function of this name in this item. Outside an
    item it has to be one of them; in an impl the type and the trait, where they are ours, and in a
    trait or a type that itself."""
    if not around:
        return name in types
    kind, _, rest = re.sub(r"^pub ", "", bare(around)).partition(" ")
    words = set(re.findall(r"\w+", rest if kind.startswith("impl") else rest.partition(":")[0]))
    return not (words & own) - types


def roots_of(specs, path, wanted, labels, types=None):
    """The definitions that the clauses of a file's functions cite."""
    lines, own = path.read_text(encoding="utf8").split("\n"), declared() if types else set()
    imports = imports_of(line for line in lines if "ghost use" in line or line.startswith(" ")
                         or line.startswith("pub use") or line.startswith("use"))
    roots = []
    for name, around, is_public, label, text in clauses_of(lines):
        if wanted and name != wanted or not is_public or labels and label not in labels:
            continue
        if types is not None and not is_met(name, around, types, own):
            continue
        for word in words_of(text.replace("::", ".")):
            roots += specs.resolve("", imports, word)
    return roots


def exported():
    """The names that `resb` passes on, and those that it makes."""
    names = set()
    for path in CRATES.glob("resb/src/**/*.rt"):
        text = path.read_text(encoding="utf8")
        for found in re.finditer(r"^pub use [^;]*;", text, re.M):
            names |= set(re.findall(r"\w+", found.group(0)))
            names |= passed_on(found.group(0))
        names |= set(re.findall(r"^pub (?:fn|enum|struct) (\w+)", text, re.M))
    return (names | told_by()) - {"pub", "use"}


def told_by():
    """The traits by whose relations those of another are told."""
    names = set()
    for path in CRATES.glob("*/src/**/*.rt"):
        text = path.read_text(encoding="utf8")
        names |= set(re.findall(r"⟦<[^⟧]* as (\w+)<[^⟧]*>⟧", text))
    return names


def passed_on(use):
    """The public functions of the modules that a `pub use` passes on."""
    names = set()
    for crate, listed in re.findall(r"use (resb_\w+)::([^;]*);", use):
        for module in re.findall(r"\b[a-z_]+\b", listed):
            path = CRATES / crate / "src" / f"{module}.rt"
            if path.is_file():
                names |= set(re.findall(r"^pub fn (\w+)", path.read_text(encoding="utf8"), re.M))
    return names


def claim_roots(specs, calls):
    roots = []
    for file, function, labels in calls:
        if file == "*":
            names, known = exported(), {*libraries(), "resb"}
            for path in sorted(CRATES.glob("*/src/**/*.rt")):
                crate = path.relative_to(CRATES).parts[0]
                if crate in known:
                    roots += roots_of(specs, path, "", [], names)
        else:
            roots += roots_of(specs, CRATES / file, function, labels)
            if not function:
                roots += law_roots(specs, CRATES / file)
    return roots


def law_roots(specs, path):
    """The statements of the laws that a file passes on."""
    roots = []
    text = path.read_text(encoding="utf8")
    for crate, names in re.findall(r"^pub use (?:(resb_\w+)|crate)::laws::([^;]*);", text, re.M):
        folder = crate or path.relative_to(CRATES).parts[0]
        source = "resb_grammar" if folder == "resb_text" else folder
        for name in re.findall(r"\w+", names):
            roots += roots_of(specs, CRATES / source / "src" / "laws.rt", name, [])
    return roots


def table(specs):
    rows = ["| To trust | Definitions | Lines | Files |", "|---|---|---|---|"]
    for name, calls in CLAIMS:
        below = specs.closure(claim_roots(specs, calls))
        files = {}
        for each in below:
            parts = each.path.relative_to(CRATES).with_suffix("").parts
            files.setdefault(parts[0], set()).add("/".join(parts[2:]))
        said = ", ".join(f"`{crate}`: {len(names)}" for crate, names in sorted(files.items()))
        rows.append(f"| {name} | {len(below)} | {sum(each.size for each in below)} | {said} |")
    return "\n".join(rows)


def main():
    words = argparse.ArgumentParser(
        description=__doc__, formatter_class=argparse.RawDescriptionHelpFormatter
    )
    asked = words.add_mutually_exclusive_group()
    asked.add_argument("--bare", action="store_true")
    asked.add_argument("--of", metavar="CLAIM")
    asked.add_argument("--check", action="store_true")
    given = words.parse_args()
    specs = Specs()
    if given.bare:
        below = specs.closure(claim_roots(specs, CLAIMS[-1][1]))
        bare = [each for each in below if not each.commented]
        for each in bare:
            print(f"{each.path.relative_to(TOP)}:{each.line}: {each.name}")
        print(f"{len(bare)} of {len(below)} have no comment line of their own")
    elif given.of is not None:
        found = [calls for name, calls in CLAIMS if name.startswith(given.of)]
        if not found:
            words.error(f"no claim begins with {given.of}")
        calls = found[0]
        for each in specs.closure(claim_roots(specs, calls)):
            print(f"{each.path.relative_to(TOP)}:{each.line}: {each.name} ({each.size})")
    elif given.check:
        if table(specs) not in PAGE.read_text(encoding="utf8"):
            print("docs/TRUST.md: the table isn't that of tests/trust.py", file=sys.stderr)
            return 1
    else:
        print(table(specs))
    return 0


if __name__ == "__main__":
    sys.exit(main())
