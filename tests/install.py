#!/usr/bin/env python3
"""What `./prove .. --to` installs, with stand-ins for what a proof builds. The last line counts.

Looked at are each file's place, mode and bytes; the words that pkg-config gives for a C program,
which is linked by them with the shared library and with the archive where a compiler is there; what
the shared library exports, that of the archive that a proof built too, if it is there; a folder
that can't be made, a file that can't be put in its place; and other words.
"""
import importlib.machinery
import importlib.util
import os
import pathlib
import re
import shutil
import subprocess
import sys
import tempfile

TOP = pathlib.Path(__file__).resolve().parent.parent
HEADER = (TOP / "include/resb.h").read_text(encoding="utf8")
SHARE = [str(it.relative_to(TOP)) for it in (TOP / "share").rglob("*") if it.is_file()]
FAILED, PASSED = [], []

# the calls that the header declares
CALLS = set(re.findall(r"^(?:uint32_t|void) (resb_\w+)\(", HEADER, re.MULTILINE))
VERSION = re.search(r"#define RESB_VERSION (\d+)", HEADER)[1]
SHARED = f"lib/libresb.so.{VERSION}"
OF_C = ["include/resb.h", "lib/libresb.a", "lib/libresb_c.a", "lib/liblibc_c.a",
        "lib/pkgconfig/resb.pc"]

# a library of one call, which asks for memory as the proved one does, and has a name of its own
LIBRARY = """
#include "resb.h"
#include <stddef.h>
extern void *rattle_alloc(size_t size, size_t align);
void *private_memory(void) { return rattle_alloc(8, 8); }
uint32_t resb_version(void) { return private_memory() ? RESB_VERSION : 0; }
"""
USER = """
#include <resb.h>
int main(void) { return resb_version() != RESB_VERSION; }
"""


def expect(name, good):
    """A check that passed, or the name of one that failed."""
    (PASSED if good else FAILED).append(name)


def loaded(root):
    """The script `prove`, as a module whose repository is a folder."""
    loader = importlib.machinery.SourceFileLoader("prove", str(TOP / "prove"))
    module = importlib.util.module_from_spec(importlib.util.spec_from_loader("prove", loader))
    loader.exec_module(module)
    module.ROOT = str(root)
    module.is_stale = lambda program: False
    return module


def stand_ins(root):
    """A repository in which a proof seems to have built the programs, for their owner alone."""
    for name in ("share", "include"):
        shutil.copytree(TOP / name, root / name)
    for program in ("resb_tool", "resb_cli"):
        path = root / "crates" / program / "out" / program
        path.parent.mkdir(parents=True)
        path.write_text(f"#!/bin/sh\necho {program}\n", encoding="utf8")
        path.chmod(0o700)
    (root / "crates/resb_c/out").mkdir(parents=True)


def status_of(module, *words):
    """The status with which the script ends."""
    sys.argv = ["prove", *words]
    stderr, sys.stderr = sys.stderr, open(os.devnull, "w", encoding="utf8")
    try:
        return module.main()
    finally:
        sys.stderr.close()
        sys.stderr = stderr


def has_files(name, prefix, wanted):
    """Whether below a folder these files are and no others, the programs alone to be run."""
    found = {str(it.relative_to(prefix)): it.stat().st_mode & 0o777
             for it in prefix.rglob("*") if it.is_file() and not it.is_symlink()}
    expect(f"{name}: {sorted(found)}", set(found) == set(wanted))
    expect(f"{name}: modes {found}",
           all(mode == (0o755 if it.startswith("bin/") else 0o644) for it, mode in found.items()))


def check_programs(module, folder):
    """The two programs, the second over one that is there."""
    expect("resb_tool", status_of(module, "--to", f"{folder}/tool") == 0)
    has_files("resb_tool", folder / "tool", ["bin/resb_tool"])
    for _ in range(2):
        expect("resb", status_of(module, "resb", "--to", f"{folder}/resb") == 0)
        has_files("resb", folder / "resb", ["bin/resb", *SHARE])
    said = subprocess.run([folder / "resb/bin/resb"], stdout=subprocess.PIPE, check=False)
    expect("resb runs", said.stdout == b"resb_cli\n")
    expect("the manual page", (folder / "resb/share/man/man1/resb.1").read_bytes()
           == (TOP / "share/man/man1/resb.1").read_bytes())


def exported(shared):
    """The names that a shared library has for others."""
    said = subprocess.run(["nm", "-D", "--defined-only", shared], stdout=subprocess.PIPE,
                          text=True, check=True).stdout
    return {line.split()[-1] for line in said.splitlines()}


def stand_in_archive(root, folder):
    """The archive of the library that stands in for the one for C."""
    library = root / "crates/resb_c/out/libresb_c.a"
    (folder / "library.c").write_text(LIBRARY, encoding="utf8")
    subprocess.run(["cc", "-fPIC", "-I", root / "include", "-c", "library.c"], cwd=folder,
                   check=True)
    subprocess.run(["ar", "rcs", library, "library.o"], cwd=folder, check=True)
    return library


def check_library(module, root, folder):
    """The library for C, below a folder with a blank, and programs that are linked with it."""
    prefix, library = folder / "of c", stand_in_archive(root, folder)
    for _ in range(2):
        expect("c", status_of(module, "c", "--to", str(prefix)) == 0)
        has_files("c", prefix, [*OF_C, SHARED])
    expect("the shared library's link",
           os.readlink(prefix / "lib/libresb.so") == f"libresb.so.{VERSION}")
    expect("the shared library's names", exported(prefix / SHARED) == {"resb_version"})
    package = (prefix / "lib/pkgconfig/resb.pc").read_text(encoding="utf8")
    expect("the version", f"\nVersion: {VERSION}\n" in package)
    check_users(folder, prefix)
    check_proved(module, folder)
    library.write_text("no archive", encoding="utf8")
    before = (prefix / SHARED).read_bytes()
    expect("an archive that isn't linked", status_of(module, "c", "--to", str(prefix)) == 2)
    expect("what was there stays", (prefix / SHARED).read_bytes() == before)
    has_files("c", prefix, [*OF_C, SHARED])


def check_users(folder, prefix):
    """Programs that are linked by pkg-config with the shared library, and with the archive."""
    (folder / "user.c").write_text(USER, encoding="utf8")
    if not shutil.which("pkg-config"):
        return
    for name, word, needs in (("shared", "", True), ("static", "-static", False)):
        asked = f"pkg-config {word and '--static'} --cflags --libs resb"
        command = f'eval "cc {word} user.c $({asked}) -o {name}" && ./{name}'
        ran = subprocess.run(["sh", "-c", command], cwd=folder, check=False,
                             env={**os.environ, "PKG_CONFIG_PATH": f"{prefix}/lib/pkgconfig"})
        expect(f"a {name} program that pkg-config links", ran.returncode == 0)
        if ran.returncode == 0:
            named = f"libresb.so.{VERSION}".encode() in (folder / name).read_bytes()
            expect(f"what a {name} program needs", named == needs)


def check_proved(module, folder):
    """The shared library of the archive that a proof built: it has the header's calls alone."""
    archive = TOP / "crates/resb_c/out/libresb_c.a"
    if archive.exists():
        made = folder / "proved.so"
        module.link(str(archive), f"{module.toolchain()}/c/liblibc_c.a", "libresb.so", str(made))
        expect("the names of the proved library", exported(made) == CALLS)


def check_without_compiler(module, root, folder):
    """The library for C where no compiler is: without a shared library, and without a link to an
    older one."""
    prefix = folder / "alone"
    (root / "crates/resb_c/out/libresb_c.a").write_text("an archive", encoding="utf8")
    (prefix / "lib").mkdir(parents=True)
    (prefix / "lib/libresb.so").symlink_to("libresb.so.1")
    which, shutil.which = shutil.which, lambda name: None if name == "cc" else which(name)
    try:
        expect("c without cc", status_of(module, "c", "--to", str(prefix)) == 0)
    finally:
        shutil.which = which
    has_files("c without cc", prefix, OF_C)
    expect("no older library", not (prefix / "lib/libresb.so").is_symlink())


def check_refusals(module, folder):
    """Words that are none, a folder below a file, and a folder where a file should be."""
    (folder / "file").write_text("", encoding="utf8")
    for words in (["other"], ["resb", "c"], ["c", "c"], ["--to"], ["--to", ""],
                  ["needed", "--to", str(folder / "x")], ["resb", "--to", str(folder / "file")]):
        expect(f"refused: {words}", status_of(module, *words) == 2)
    expect("needed", status_of(module, "c", "needed") == 1)
    (folder / "taken/bin/resb_tool").mkdir(parents=True)
    expect("a folder in the place", status_of(module, "--to", f"{folder}/taken") == 2)
    expect("nothing is left", os.listdir(folder / "taken/bin") == ["resb_tool"])


def main():
    """Makes the stand-ins and counts."""
    sys.dont_write_bytecode = True
    with tempfile.TemporaryDirectory() as name:
        folder = pathlib.Path(name)
        root = folder / "root"
        stand_ins(root)
        module = loaded(root)
        check_programs(module, folder)
        if shutil.which("cc") and shutil.which("ar"):
            check_library(module, root, folder)
        check_without_compiler(module, root, folder)
        check_refusals(module, folder)
    for it in FAILED:
        print(f"FAIL {it}")
    print(f"{len(PASSED)} passed, {len(FAILED)} failed")
    return 1 if FAILED else 0


if __name__ == "__main__":
    sys.exit(main())
