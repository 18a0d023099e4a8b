#!/usr/bin/env python3
"""Every public call of `resb`, a line each, without its contract and with the first sentence of its
documentation, made from the sources. The contract stands with the call. `resb::laws` isn't among
them: it has a sentence for each law itself.

  signatures.py           prints them all, a table for each module
"""
import pathlib
import re
import signal
import sys

TOP = pathlib.Path(__file__).resolve().parent.parent
CRATES = TOP / "crates"
HEAD = """# Every public call of `resb`

Most programs need these: `resb::Compile::text`, `resb::text::Reader::read`,
`resb::text::Print`, `resb::binary::File` (whose `open` takes `None` for a file that uses no
pool bundle), `resb::binary::Cursor` and `resb::binary::Serializer::to_bytes`.
"""


def libraries():
    """The crates that `resb` stands on, by crates.txt, in its order."""
    stands_on = {}
    for line in (TOP / "crates.txt").read_text(encoding="utf8").split("\n"):
        name, _, below = line.split("#")[0].partition(":")
        if name.split():
            stands_on[name.split()[0]] = below.split()
    needed, left = {"resb"}, ["resb"]
    while left:
        more = set(stands_on.get(left.pop(), [])) - needed
        needed |= more
        left += sorted(more)
    return [name for name in stands_on if name in needed and name != "resb"]


def sources():
    """The files of the library's crates, by crate, and those of `resb` that hold what it makes
    itself: its own laws, of which the headline passes some on."""
    for name in libraries():
        for path in sorted((CRATES / name / "src").rglob("*.rt")):
            yield name, path
    own = CRATES / "resb" / "src"
    for path in [own / "laws.rt", *sorted(own.glob("compiling*.rt"))]:
        yield "resb", path


def exports(path):
    """The names that a module of `resb` passes on, in their order, each with its crate."""
    text = path.read_text(encoding="utf8")
    for found in re.finditer(r"^pub use (\w+)(?:::(\w+))?(?:::(\{[^}]*\}|\w+));", text, re.M):
        source, _, names = found.groups()
        for name in re.findall(r"\w+", names):
            yield source, name


def sentence(lines, at):
    """The first sentence of the documentation above a line."""
    said = []
    at -= 1
    while at >= 0 and (lines[at].strip().startswith("///") or lines[at].strip().startswith("#[")):
        if lines[at].strip().startswith("///"):
            said.insert(0, lines[at].strip()[3:].strip())
        at -= 1
    whole = " ".join(said)
    return re.split(r"(?<=\.)\s+(?=[A-Z`])", whole)[0] if whole else ""


def signature(lines, at):
    """A call's signature on one line, without its clauses."""
    text = ""
    for line in lines[at:]:
        stripped = line.strip()
        if re.match(r"^(ensures|requires|\{|//)", stripped):
            break
        text += " " + stripped
        if stripped.endswith(("{", ";")):
            text = text.rstrip("{; ")
            break
    text = re.sub(r"\s+", " ", text).strip()
    text = text.replace("( ", "(").replace(", )", ")").replace("pub fn ", "fn ")
    return text


class Library:
    """Where each public name of the library's crates stands."""

    def __init__(self):
        self.items, self.methods, self.traits, self.into = {}, {}, {}, {}
        for crate, path in sources():
            self.read(crate, path)

    def item(self, crate, name):
        """What a name of a crate is, which that crate may have from another."""
        return self.items.get((crate, name)) or self.items.get(name)

    def traits_of(self, crate, name):
        """The traits of a type; of one whose name two crates have, those that its own gives it."""
        shared = sum(1 for it in self.items if isinstance(it, tuple) and it[1] == name) > 1
        return [trait for giver, trait in self.traits.get(name, [])
                if not shared or giver == crate]

    def read(self, crate, path):
        lines = path.read_text(encoding="utf8").split("\n")
        around, is_trait = "", False
        for at, line in enumerate(lines):
            found = re.match(r"^(?:pub )?(impl|trait)\b(.*)", line)
            if found:
                inherent = re.match(r"^impl(?:<[^>]*>)? (\w+)(?:<[^{]*>)? ", line)
                trait = re.match(r"^pub trait (\w+)", line)
                around = (trait or inherent).group(1) if trait or (
                    inherent and " for " not in line) else ""
                is_trait = bool(trait)
                given = re.match(r"^impl(?:<.*?>)? ([A-Z]\w*(?:<.*>)?) for (\w+)", line)
                turned = re.match(r"^impl(?:<.*?>)? From<(\w+)(?:<.*>)?> for ([a-z]\w*)", line)
                if turned:
                    self.into.setdefault(turned.group(1), []).append(turned.group(2))
                if given:
                    name = given.group(2)
                    self.traits.setdefault(name, []).append((crate, given.group(1)))
            elif line.startswith("}"):
                around = ""
            item = re.match(r"^pub (fn|struct|enum|trait|const|type) (\w+)", line)
            if item:
                found = (item.group(1), lines, at)
                self.items.setdefault(item.group(2), found)
                self.items.setdefault((crate, item.group(2)), found)
            method = re.match(r"^    (pub )?(?:const )?fn (\w+)", line)
            if method and around and (method.group(1) or is_trait):
                self.methods.setdefault(around, []).append((method.group(2), lines, at))


def rows_of(library, crate, name):
    """The lines of the page for a name that a crate has: itself, and its calls."""
    if not library.item(crate, name):
        return []
    kind, lines, at = library.item(crate, name)
    if kind == "fn":
        return [(signature(lines, at), sentence(lines, at))]
    head = signature(lines, at).removeprefix("pub ") if kind == "type" else f"{kind} {name}"
    rows = [(head, sentence(lines, at)), *parts_of(name, lines, at)]
    for _, lines, at in library.methods.get(name, []):
        rows.append((f"{name}: " + signature(lines, at), sentence(lines, at)))
    traits = [trait for trait in library.traits_of(crate, name)
              if not trait.startswith(("Drop", "Error", "MadeWith", "Model"))]
    if traits:
        rows.append((f"{name}: " + ", ".join(dict.fromkeys(traits)), "The traits that it has."))
    into = library.into.get(name, [])
    if into:
        rows.append((", ".join(f"{it}: From<{name}>" for it in into), "What it turns into."))
    return rows


def parts_of(name, lines, at):
    """The lines of the page for an enum's variants or a struct's public fields."""
    rows = []
    if lines[at].rstrip().endswith(("}", ";")):
        return rows
    for below in range(at + 1, len(lines)):
        line = lines[below]
        if line.startswith("}"):
            break
        variant = re.match(r"^    ([A-Z]\w*(?:\(.*\))?)(?: = \w+)?,$", line)
        field = re.match(r"^    pub (\w+: .*),$", line)
        if variant and " enum " in f" {lines[at]}":
            rows.append((f"{name}::{variant.group(1)}", sentence(lines, below)))
        elif field:
            rows.append((f"{name}: {field.group(1)}", sentence(lines, below)))
    return rows


def calls_of(crate, module):
    """The lines of a module of a lower crate that `resb` passes on."""
    path = CRATES / crate / "src" / f"{module}.rt"
    if not path.is_file():
        return []
    lines = path.read_text(encoding="utf8").split("\n")
    return [(signature(lines, at).replace("fn ", f"fn {module}::", 1), sentence(lines, at))
            for at, line in enumerate(lines) if line.startswith("pub fn")]


def section(library, title, path):
    text = path.read_text(encoding="utf8")
    lines = text.split("\n")
    rows, seen = [], set()
    for at, line in enumerate(lines):
        if re.match(r"^pub fn", line):
            rows.append((signature(lines, at), sentence(lines, at)))
        found = re.match(r"^pub (struct|enum) (\w+)", line)
        if found:
            rows.append((found.group(1) + " " + found.group(2), sentence(lines, at)))
    for source, name in exports(path):
        if name not in seen and "laws" not in path.name:
            seen.add(name)
            rows += rows_of(library, source, name) or calls_of(source, name)
    if not rows:
        return ""
    out = [f"\n## {title}\n", "| Call | What it does |", "|---|---|"]
    for call, said in rows:
        out.append("| `" + call.replace("|", "\\|") + "` | " + said.replace("|", "\\|") + " |")
    return "\n".join(out) + "\n"


def page():
    library = Library()
    text = HEAD
    top = CRATES / "resb" / "src"
    modules = [("`resb`", top / "lib.rt"), ("`resb::headline`", top / "headline.rt"),
               ("`resb::bundle`", top / "bundle.rt"), ("`resb::text`", top / "text.rt"),
               ("`resb::binary`", top / "binary.rt")]
    modules += [(f"`resb::binary::{path.stem}`", path)
                for path in sorted((top / "binary").glob("*.rt"))]
    named = {path for _, path in modules} | {top / "laws.rt"}
    modules += [(f"`resb::{path.stem}`", path) for path in sorted(top.glob("*.rt"))
                if path not in named]
    for title, path in modules:
        text += section(library, title, path)
    return text


def main():
    if sys.argv[1:]:
        print("signatures.py takes no words", file=sys.stderr)
        return 2
    print(page(), end="")
    return 0


if __name__ == "__main__":
    if sys.argv[1:] == ["--help"]:
        sys.exit(print(__doc__))
    signal.signal(signal.SIGPIPE, signal.SIG_DFL)
    sys.exit(main())
