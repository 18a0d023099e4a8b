#!/usr/bin/env python3
"""The mistakes that people make in texts of ICU's form, beside ICU's `genrb`: what each of the two
says of each text.

    mistakes.py [PROGRAM]        a table of what each says first
    mistakes.py [PROGRAM] whole  each text, and all that each says of it

PROGRAM is `resb`, the proved one if none is named. The texts are those of
tests/sessions/mistakes.bash, and some that both take, with a warning or without one. `genrb` names
a line, or none; `resb` names line and column, and shows the line. Whether a message finds the
mistake is for the reader to say.
"""
import pathlib
import re
import subprocess
import sys
import tempfile

TOP = pathlib.Path(__file__).resolve().parent.parent
RESB = TOP / "crates/resb_cli/out/resb_cli"
ROW = re.compile(r"^--icu@[^@]*@[^@]*@(.*)$", re.M)
# mistakes in texts that both take
TAKEN = [b"b{a{x}}}", b"b{\n a{x}}\n c{y}\n}\n", b"b{a{x}}c{y}", b"b{a:int{010}}",
         b'b{a{"\\d+"}}', b"b{a{Hello {0}}}"]


def texts():
    """The texts, as `printf` writes them."""
    rows = (TOP / "tests/sessions/mistakes.bash").read_text(encoding="utf8")
    for spelled in ROW.findall(rows):
        written = subprocess.run(["bash", "-c", 'printf %b "$0"', spelled], stdout=subprocess.PIPE)
        yield written.stdout
    yield from TAKEN


def said(command, folder):
    """The lines that a command says, without the names of folders."""
    run = subprocess.run(command, cwd=folder, stdout=subprocess.PIPE, stderr=subprocess.STDOUT)
    lines = [line for line in run.stdout.decode(errors="replace").split("\n") if line.strip()]
    if run.returncode == 0 and not lines:
        return ["(takes the text)"]
    return [line.replace(f"{folder}/", "") for line in lines] or [f"(status {run.returncode})"]


def shown(text):
    """A text or a message as a cell of a table."""
    return "`" + text.replace("\n", "⏎").replace("|", "¦").replace("`", "'") + "`"


def main():
    words = sys.argv[1:]
    is_whole = words[-1:] == ["whole"]
    words = words[:-1] if is_whole else words
    if len(words) > 1 or words == ["--help"]:
        print(__doc__)
        return 0 if words == ["--help"] else 2
    program = str(pathlib.Path(words[0]).resolve() if words else RESB)
    if not is_whole:
        print("| Text | `genrb` | `resb` |\n|---|---|---|")
    with tempfile.TemporaryDirectory() as folder:
        for number, text in enumerate(texts(), 1):
            (pathlib.Path(folder) / "b.txt").write_bytes(text)
            theirs = said(["genrb", "b.txt"], folder)
            ours = said([program, "compile", "--icu", "b.txt"], folder)
            if is_whole:
                lines = [f"## {number}", text.decode(), "-- genrb", *theirs, "-- resb", *ours]
                print(*lines, sep="\n")
            else:
                print("| " + " | ".join(map(shown, (text.decode(), theirs[0], ours[0]))) + " |")
    return 0


if __name__ == "__main__":
    sys.exit(main())
