#!/usr/bin/env python3
"""Draws docs/speed.svg: time and memory of `resb` beside those of ICU's tools, from the tables of
bench/README.md ("Texts in ICU's own form", and what follows it). Each tool of ICU's is 1.

  picture.py           writes the picture
  picture.py --check   ends with status 1 if the picture isn't the one that it would write
"""
import pathlib
import re
import sys

TOP = pathlib.Path(__file__).resolve().parent.parent
PAGE = TOP / "bench" / "README.md"
PICTURE = TOP / "docs" / "speed.svg"
LEFT, SCALE, STEP, BAR = 190, 400, 34, 11
TIME, MEMORY = "#2563a8", "#9ec5ea"


def greatest(cell):
    """The greatest number of a cell, if it has one."""
    found = [float(number) for number in re.findall(r"\d+\.\d+", cell)]
    return max(found) if found else None


def rows(text, head):
    """The rows of the table whose first cell begins so."""
    found = re.search(rf"^\| {re.escape(head)}.*\n\|[-|]+\n((?:\|.*\n)+)", text, re.M)
    for line in found.group(1).splitlines():
        yield [cell.strip() for cell in line.strip("|").split("|")]


def bars():
    """What each pair of bars is called, with its time and its memory."""
    page = PAGE.read_text(encoding="utf8")
    texts = page[page.index("## Texts in ICU's own form"):]
    for name, *_, both in rows(texts, "Text ("):
        time, memory = both.split(",")
        yield f"compile --icu: {name}", greatest(time), greatest(memory)
    for name, time, memory in rows(texts, "Command ("):
        yield name.strip("`").removeprefix("resb "), greatest(time), greatest(memory)


def bar(y, value, colour):
    """One bar with its number."""
    width = round(value * SCALE)
    return (f'<rect x="{LEFT}" y="{y}" width="{width}" height="{BAR}" fill="{colour}"/>'
            f'<text x="{LEFT + width + 5}" y="{y + 10}">{value:.2f}</text>')


def picture():
    lines, y = [], 46
    for name, time, memory in bars():
        lines.append(f'<text x="{LEFT - 8}" y="{y + 15}" text-anchor="end">{name}</text>')
        for value, colour, down in ((time, TIME, 0), (memory, MEMORY, BAR + 1)):
            if value is not None:
                lines.append(bar(y + down, value, colour))
        y += STEP
    end = LEFT + SCALE
    head = [
        f'<svg xmlns="http://www.w3.org/2000/svg" width="{end + 60}" height="{y + 8}" '
        'font-family="sans-serif" font-size="11">',
        "<title>Time and memory of resb beside genrb and derb</title>",
        '<rect width="100%" height="100%" fill="white"/>',
        f'<text x="{LEFT}" y="16">processor time and memory, as parts of ICU\'s tool: genrb for '
        "compile, derb for dump</text>",
        f'<rect x="{LEFT}" y="24" width="12" height="10" fill="{TIME}"/>'
        f'<text x="{LEFT + 17}" y="33">time</text>',
        f'<rect x="{LEFT + 60}" y="24" width="12" height="10" fill="{MEMORY}"/>'
        f'<text x="{LEFT + 77}" y="33">memory</text>',
        f'<line x1="{end}" y1="38" x2="{end}" y2="{y}" stroke="#888"/>'
        f'<text x="{end - 14}" y="33">ICU</text>',
    ]
    return "\n".join([*head, *lines, "</svg>"]) + "\n"


def main():
    if sys.argv[1:] == ["--check"]:
        same = PICTURE.exists() and PICTURE.read_text(encoding="utf8") == picture()
        print("" if same else "docs/speed.svg is another picture: bench/picture.py", end="")
        return 0 if same else 1
    PICTURE.write_text(picture(), encoding="utf8")
    return 0


if __name__ == "__main__":
    if sys.argv[1:] == ["--help"]:
        sys.exit(print(__doc__))
    sys.exit(main())
