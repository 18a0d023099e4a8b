#!/usr/bin/env python3
"""Calls ICU's genrb and derb, and ours, with the same words, each in a folder of its own.

    icu_words.py [RESB]

RESB is the program, crates/resb_cli/out/resb_cli if left out. Status and files are compared; ours is
called with --compact, by which it writes genrb's bytes. A case with a reason differs, and the
reasons are those of docs/PROGRAM.md. Run by hand where ICU's tools are installed. The last line
counts.
"""
import os
import shutil
import subprocess
import sys
import tempfile

TOP = os.path.dirname(os.path.dirname(os.path.abspath(__file__)))
PROGRAM = sys.argv[1] if sys.argv[1:] else f"{TOP}/crates/resb_cli/out/resb_cli"

TEXT = 'a { x { "1 \u00e9" } y:int { 2 } z:array { "one two three", "three" } }'
COLLATED = 'c { collations { standard { Sequence { "&a<b" } Version { "1" } } } k { "v" } }'

# the texts, by encoding; `pool` is a pool bundle of these texts
FILES = {
    "in/a.txt": TEXT,
    "in/b.txt": 'b { y { "2" } x { "three" } }',
    "in/same.txt": 'a { x { "other" } }',
    "in/named.txt": 'other { x { "1" } }',
    "in/bad.txt": 'bad { x { "1" ',
    "in/worse.txt": 'worse { x }}',
    "in/empty.txt": "",
    "in/blank.txt": " \n// nothing\n",
    "in/c.txt": COLLATED,
    "in/two.dots.txt": 'two { x { "1" } }',
    "in/noending": 'noending { x { "1" } }',
    "in/sub/d.txt": 'd { x { "1" } }',
    "in/folder.txt/e.txt": 'e { x { "1" } }',
    "in/mark8.txt": "\ufeff" + TEXT,
    "rules/a.txt": "-/x\n",
    "rules/bad.txt": "",
    "wrong/a.txt": "x\n",
    "plain/pool.res": "no pool",
}
ENCODED = {
    "in/mark16l.txt": ("\ufeff" + TEXT, "utf-16-le"),
    "in/mark16b.txt": ("\ufeff" + TEXT, "utf-16-be"),
    "in/mark32l.txt": ("\ufeff" + TEXT, "utf-32-le"),
    "in/mark32b.txt": ("\ufeff" + TEXT, "utf-32-be"),
    "in/l16.txt": (TEXT, "utf-16-le"),
    "in/b16.txt": (TEXT, "utf-16-be"),
    "in/latin.txt": (TEXT, "latin-1"),
    "in/euro.txt": (TEXT.replace("\u00e9", "\u20ac"), "cp1252"),
}

# where ours is called with --keep-going
ORDER = "the greatest status counts, unless --keep-going is said"
# why ours may differ: docs/PROGRAM.md has these
TWO = "two texts of one bundle are refused"
TAKEN = "this is taken"
HELP = "help and versions end with 0"
JAVA = "only .res files are written"
KIND = "a text that is refused has 3"
UNKNOWN = "an encoding or a version that isn't written is refused"
FAILS = "a file that isn't read has a status of its own"
CUTS = "no data are left out"
OWN = "the data that are built into ICU aren't read"

# words of genrb, and why ours may differ
GENRB = [
    ("-s in -d out a.txt", ""),
    ("-s in -d out a.txt b.txt", ""),
    ("-s in/ -d out/ a.txt", ""),
    ("-s ./in -d ./out a.txt", ""),
    ("-s in/. -d out a.txt", TAKEN),
    ("-s in/./ -d out a.txt", ""),
    ("-s in -d out/. a.txt", ""),
    ("-s @/in -d @/out a.txt", ""),
    ("-s none -d out a.txt", ""),
    ("-s in -d none a.txt", ""),
    ("-s in/a.txt -d out a.txt", ""),
    ("-s in -d in/a.txt b.txt", ""),
    ("-d out in/a.txt", ""),
    ("-d out ./in/a.txt", ""),
    ("-d out @/in/a.txt", ""),
    ("-s in -d out @/in/a.txt", ""),
    ("-s in -d out ../in/a.txt", ""),
    ("-s in -d out ./a.txt", ""),
    ("-s in -d out sub/d.txt", ""),
    ("-s in -d out sub/../a.txt", ""),
    ("-s in/sub -d out d.txt", ""),
    ("-s in -d out", ""),
    ("", ""),
    ("-d out", ""),
    ("-s in -d out none.txt", ""),
    ("-s in -d out folder.txt", ""),
    ("-s in -d out sub", ""),
    ("-s in -d out a", ""),
    ("-s in -d out noending", ""),
    ("-s in -d out two.dots.txt", ""),
    ("-s in -d out named.txt", ""),
    ("-s in -d out empty.txt", ""),
    ("-s in -d out blank.txt", ""),
    ("-s in -d out bad.txt", ""),
    ("-s in -d out worse.txt", ""),
    ("-s in -d out bad.txt a.txt", ORDER),
    ("-s in -d out a.txt bad.txt", ""),
    ("-s in -d out a.txt bad.txt b.txt", ORDER),
    ("-s in -d out none.txt a.txt", ORDER),
    ("-s in -d out a.txt none.txt", ""),
    ("-s in -d out bad.txt none.txt", ""),
    ("-s in -d out none.txt bad.txt", ORDER),
    ("-s in -d out bad.txt worse.txt", ""),
    ("-s in -d out a.txt a.txt", ""),
    ("-s in -d out a.txt ./a.txt", ""),
    ("-s in -d out a.txt same.txt", TWO),
    ("-s in -d out same.txt a.txt", TWO),
    ("-s in -d out -q a.txt", ""),
    ("-s in -d out --quiet a.txt", ""),
    ("-s in -d out -v a.txt", ""),
    ("-s in -d out --verbose a.txt b.txt", ""),
    ("-s in -d out -k a.txt", ""),
    ("-s in -d out --strict a.txt", ""),
    ("-s in -d out -c a.txt", ""),
    ("-s in -d out --copyright a.txt b.txt", ""),
    ("-s in -d out -qk a.txt", ""),
    ("-s in -d out -kvc a.txt", ""),
    ("-sin -dout a.txt", ""),
    ("--sourcedir in --destdir out a.txt", ""),
    ("--sourcedir=in --destdir=out a.txt", TAKEN),
    ("-s none -s in -d out a.txt", ""),
    ("-d none -s in -d out a.txt", ""),
    ("a.txt -s in -d out", ""),
    ("-s in a.txt -d out b.txt", ""),
    ("-s in -d out -- a.txt", ""),
    ("-s in -d out -", ""),
    ("-s in -d out --none a.txt", ""),
    ("-s in -d out -Z a.txt", ""),
    ("-s in -d", ""),
    ("-d out -s", ""),
    ("-h", HELP),
    ("-?", HELP),
    ("--help", HELP),
    ("-V", HELP),
    ("--version", HELP),
    ("-h -s in -d out a.txt", ""),
    ("-V -s in -d out a.txt", ""),
    ("-s in -d out -i in a.txt", ""),
    ("-s in -d out --icudatadir none a.txt", ""),
    ("-s in -d out -i", ""),
    ("-s in -d out -l en a.txt", ""),
    ("-s in -d out --language en a.txt", ""),
    ("-s in -d out -b name a.txt", ""),
    ("-s in -d out --bundle-name name a.txt", ""),
    ("-s in -d out --java-package p a.txt", ""),
    ("-s in -d out -j a.txt", ""),
    ("-s in -d out --write-java a.txt", ""),
    ("-s in -d out -x a.txt", ""),
    ("-s in -d out --write-xliff f.xlf a.txt", JAVA),
    ("-s in -d out -j -b B --java-package p a.txt", JAVA),
    ("-s in -d out mark8.txt", ""),
    ("-s in -d out mark16l.txt", ""),
    ("-s in -d out mark16b.txt", ""),
    ("-s in -d out mark32l.txt", ""),
    ("-s in -d out mark32b.txt", ""),
    ("-s in -d out l16.txt", ""),
    ("-s in -d out b16.txt", ""),
    ("-s in -d out latin.txt", ""),
    ("-s in -d out euro.txt", ""),
    ("-s in -d out -e UTF-8 a.txt", ""),
    ("-s in -d out -e utf8 a.txt", ""),
    ("-s in -d out -e UTF-8 mark8.txt", ""),
    ("-s in -d out -e UTF-8 mark16l.txt", ""),
    ("-s in -d out -e utf-16 mark16l.txt", ""),
    ("-s in -d out -e UTF-16 mark16b.txt", ""),
    ("-s in -d out -e UTF-16 l16.txt", KIND),
    ("-s in -d out -e UTF-16 b16.txt", ""),
    ("-s in -d out -e UTF-16LE l16.txt", ""),
    ("-s in -d out -e UTF-16LE mark16l.txt", ""),
    ("-s in -d out -e utf-16be b16.txt", ""),
    ("-s in -d out -e UTF-16BE mark16b.txt", ""),
    ("-s in -d out -e UTF-32 mark32l.txt", ""),
    ("-s in -d out -e UTF-32 mark32b.txt", ""),
    ("-s in -d out -e latin1 latin.txt", ""),
    ("-s in -d out -e ISO-8859-1 latin.txt", ""),
    ("-s in -d out -e iso_8859-1 latin.txt", ""),
    ("-s in -d out -e windows-1252 latin.txt", ""),
    ("-s in -d out -e windows-1252 euro.txt", ""),
    ("-s in -d out -e cp1252 euro.txt", ""),
    ("-s in -d out -e latin1 a.txt", ""),
    ("-s in -d out -e US-ASCII b.txt", ""),
    ("-s in -d out -e none a.txt", UNKNOWN),
    ("-s in -d out -e", ""),
    ("-s in -d out --encoding UTF-8 a.txt b.txt", ""),
    ("-s in -d out --formatVersion 1 a.txt", UNKNOWN),
    ("-s in -d out --formatVersion 2 a.txt", ""),
    ("-s in -d out --formatVersion 3 a.txt", ""),
    ("-s in -d out --formatVersion 3 b.txt", ""),
    ("-s in -d out --formatVersion 4 a.txt", UNKNOWN),
    ("-s in -d out --formatVersion 0 a.txt", UNKNOWN),
    ("-s in -d out --formatVersion x a.txt", UNKNOWN),
    ("-s in -d out --formatVersion 22 a.txt", ""),
    ("-s in -d out --formatVersion=2 a.txt", TAKEN),
    ("--writePoolBundle -s in -d out a.txt b.txt", ""),
    ("-s in -d out --writePoolBundle a.txt b.txt", ""),
    ("--writePoolBundle -s in -d out a.txt", ""),
    ("-s in -d out --writePoolBundle out a.txt b.txt", ""),
    ("-s in -d out --writePoolBundle=. a.txt b.txt", TAKEN),
    ("-s in -d out --writePoolBundle=none a.txt", TAKEN),
    ("--writePoolBundle -s in -d out --formatVersion 2 a.txt b.txt", UNKNOWN),
    ("--writePoolBundle -s in -d out --formatVersion 3 a.txt b.txt", ""),
    ("--writePoolBundle -s in -d out bad.txt a.txt", ORDER),
    ("--writePoolBundle -s in -d out a.txt bad.txt", ""),
    ("-s in -d out --writePoolBundle", ""),
    ("-s in -d out --writePoolBundle --usePoolBundle pool a.txt", ""),
    ("-s in -d out --usePoolBundle pool a.txt b.txt", ""),
    ("-s in -d out --usePoolBundle=pool a.txt", TAKEN),
    ("-s in -d out --usePoolBundle pool/ a.txt", ""),
    ("-s in -d out --usePoolBundle pool/pool.res a.txt", TAKEN),
    ("-s in -d out --usePoolBundle none a.txt", ""),
    ("-s in -d out --usePoolBundle plain a.txt", ""),
    ("-s in -d out --usePoolBundle a.txt", ""),
    ("-s pooled -d out --usePoolBundle= a.txt", TAKEN),
    ("-s pooled -d out a.txt --usePoolBundle", ""),
    ("-s in -d out --usePoolBundle pool --formatVersion 2 a.txt", ""),
    ("-s in -d out --usePoolBundle pool --formatVersion 3 a.txt", ""),
    ("-s in -d out --usePoolBundle pool bad.txt", ""),
    ("-s in -d out --filterDir rules a.txt", ""),
    ("-s in -d out --filterDir rules b.txt", ""),
    ("-s in -d out --filterDir rules bad.txt", ""),
    ("-s in -d out --filterDir wrong a.txt", ""),
    ("-s in -d out --filterDir none a.txt", ""),
    ("-s in -d out --filterDir rules a.txt b.txt", ""),
    ("-s in -d out -C c.txt", ""),
    ("-s in -d out --noBinaryCollation c.txt", ""),
    ("-s in -d out -R -C c.txt", ""),
    ("-s in -d out --omitCollationRules -C c.txt", ""),
    ("-s in -d out -C a.txt c.txt", ""),
    ("-s in -d out -R a.txt", ""),
]

# words of derb
DERB = [
    ("-s ./res -d out a.res", ""),
    ("-s ./res -d out a", ""),
    ("-s ./res -d out a.res b.res", ""),
    ("-s ./res/ -d out a.res", ""),
    ("-s ./res/. -d out a.res", ""),
    ("-s ./res -d ./out a.res", ""),
    ("-s @/res -d out a.res", ""),
    ("-s ./none -d out a.res", FAILS),
    ("-s ./res -d none a.res", FAILS),
    ("-s ./res -d out none.res", FAILS),
    ("-s ./res -d out none", FAILS),
    ("-s ./res -d out a.res none.res", FAILS),
    ("-s ./res -d out none.res a.res", FAILS),
    ("-s ./res -d out damaged.res", FAILS),
    ("-s ./res -d out damaged.res a.res", FAILS),
    ("-s ./res -d out a.res damaged.res", FAILS),
    ("-s ./res -d out text.res", FAILS),
    ("-s ./res -d out folder.res", FAILS),
    ("-d out res/a.res", ""),
    ("-d out ./res/a.res", ""),
    ("-d out @/res/a.res", TAKEN),
    ("-s ./res -d out", FAILS),
    ("", FAILS),
    ("-s ./res -c a.res", ""),
    ("-s ./res --to-stdout a.res", ""),
    ("-s ./res -c a.res b.res", ""),
    ("-s ./res -c -d out a.res", ""),
    ("-s ./res -c none.res", FAILS),
    ("-s ./res -d out -v a.res", ""),
    ("-s ./res -d out --verbose a.res", ""),
    ("-s ./res -d out -A a.res", ""),
    ("-s ./res -d out --suppressAliases al.res", ""),
    ("-s ./res -d out al.res", ""),
    ("-s ./res -d out -t a.res", CUTS),
    ("-s ./res -d out -t 20 a.res", CUTS),
    ("-s ./res -d out --truncate a.res", CUTS),
    ("-s ./res -d out --truncate=20 long.res", ""),
    ("-s ./res -d out --bom a.res", ""),
    ("-s ./res -c --bom a.res", ""),
    ("-s ./res -d out -e UTF-8 a.res", ""),
    ("-s ./res -d out -e utf-8 a.res", ""),
    ("-s ./res -d out -e UTF-16 a.res", UNKNOWN),
    ("-s ./res -d out -e none a.res", UNKNOWN),
    ("-s ./res -d out -i none a.res", ""),
    ("-s ./res -d out --icudatadir res a.res", ""),
    ("-h", ""),
    ("-?", ""),
    ("--help", ""),
    ("-V", ""),
    ("--version", ""),
    ("-s - -d out a.res", OWN),
    ("-s ./res -d out -", FAILS),
    ("-s ./res -d out --none a.res", ""),
    ("-s ./res -d out -- a.res", ""),
    ("-s none -s ./res -d out a.res", ""),
    ("-s ./over -d out a.res", FAILS),
    ("-s ./res -d out a.res al.res long.res", ""),
]


def written(path, data):
    """Writes a file below its folders."""
    os.makedirs(os.path.dirname(path), exist_ok=True)
    with open(path, "wb") as out:
        out.write(data)


def call(words, folder, **how):
    """The status of a call in a folder, and what it printed."""
    ran = subprocess.run(words, cwd=folder, stdin=subprocess.DEVNULL, capture_output=True,
                         check=False, timeout=60, **how)
    return ran.returncode, ran.stdout, ran.stderr


def icu(folder, words):
    """A call of ICU's that makes what the cases need."""
    status, _, said = call(words.split(), folder)
    if status:
        sys.exit(f"icu_words: {words}: {said.decode()}")


def make_rooms(room):
    """The folder of which each case has a copy."""
    for name, text in FILES.items():
        written(f"{room}/{name}", text.encode())
    for name, (text, encoding) in ENCODED.items():
        written(f"{room}/{name}", text.encode(encoding))
    for name in ("out", "pool", "res", "over", "pooled"):
        os.makedirs(f"{room}/{name}")
    written(f"{room}/in/al.txt", b'al { x { "1" } y:alias { "/ICUDATA/root/x" } }')
    written(f"{room}/in/long.txt", ('long { x { "%s" } }' % ("word " * 40)).encode())
    icu(room, "genrb --writePoolBundle -q -s in -d pool a.txt b.txt")
    for name in os.listdir(f"{room}/pool"):
        if name != "pool.res":
            os.remove(f"{room}/pool/{name}")
    icu(room, "genrb -q -s in -d res a.txt b.txt al.txt long.txt")
    icu(room, "genrb --usePoolBundle pool -q -s in -d over a.txt b.txt")
    shutil.copy(f"{room}/in/a.txt", f"{room}/pooled/a.txt")
    shutil.copy(f"{room}/pool/pool.res", f"{room}/pooled/pool.res")
    written(f"{room}/res/text.res", b"no bundle")
    os.makedirs(f"{room}/res/folder.res")
    with open(f"{room}/res/a.res", "rb") as file:
        written(f"{room}/res/damaged.res", file.read()[:60])


def files_of(folder):
    """All files below a folder, with their bytes."""
    found = {}
    for at, _, names in os.walk(folder):
        for name in names:
            with open(f"{at}/{name}", "rb") as file:
                found[os.path.relpath(f"{at}/{name}", folder)] = file.read()
    return found


def tried(tool, words, more, base, room):
    """What a call of ICU's tool and ours come to: the status, the files, and what is said."""
    found = []
    for program in ([tool], [PROGRAM, tool]):
        shutil.copytree(base, room)
        given = words.replace("@", room).split()
        options = more if len(program) > 1 and given else []
        status, _, said = call([*program, *options, *given], room)
        files = files_of(room)
        if tool == "derb":
            # its texts lose what ours keep: only where they go is compared
            files = dict.fromkeys(files, b"")
        found.append((status, files, said.decode(errors="replace").strip()))
        shutil.rmtree(room)
    return found


def main():
    """Tries all cases."""
    alike = known = failed = 0
    with tempfile.TemporaryDirectory(prefix="icu-words-") as folder:
        base = f"{folder}/base"
        make_rooms(base)
        for tool, cases in (("genrb", GENRB), ("derb", DERB)):
            for words, reason in cases:
                more = ["--compact"] if tool == "genrb" else []
                if reason == ORDER:
                    reason, more = "", [*more, "--keep-going"]
                theirs, ours = tried(tool, words, more, base, f"{folder}/room")
                if theirs[:2] == ours[:2] and not reason:
                    alike += 1
                    continue
                if theirs[:2] != ours[:2] and reason:
                    known += 1
                    print(f"{reason}: {tool} {words}")
                    continue
                failed += 1
                changed = sorted(it for it in {*theirs[1], *ours[1]}
                                 if theirs[1].get(it) != ours[1].get(it))
                print(f"FAILED: {tool} {words}: status {theirs[0]} and {ours[0]}; {changed}\n"
                      f"    {theirs[2][:200]!r}\n    {ours[2][:200]!r}")
    print(f"alike {alike}, other for a reason {known}")
    print(f"{alike + known} passed, {failed} failed")
    return 1 if failed else 0


if __name__ == "__main__":
    sys.exit(main())
