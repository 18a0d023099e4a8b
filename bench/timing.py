"""Times whole processes, for the scripts beside this one.

Processor time, user and system, is less moved by other work on the machine than the clock is. Texts
are made by processes of their own, since a process counts the memory of the one that started it.
"""
import os
import pathlib
import subprocess
import sys


def least(command, turns, given=os.devnull, folder=None):
    """The least milliseconds of so many runs, the most memory in bytes, and the last run's
    status."""
    best, memory, status = None, 0, 0
    for _ in range(turns):
        with open(given, 'rb') as stdin:
            child = subprocess.Popen(
                command, cwd=folder, stdin=stdin, stdout=subprocess.DEVNULL,
                stderr=subprocess.DEVNULL)
            _, status, used = os.wait4(child.pid, 0)
        took = used.ru_utime + used.ru_stime
        best = took if best is None else min(best, took)
        memory = max(memory, used.ru_maxrss * 1024)
    return best * 1000, memory, os.waitstatus_to_exitcode(status)


def make(script, kind, size, path):
    """Writes what `script --make KIND SIZE` prints. Gives its bytes."""
    with open(path, 'wb') as file:
        subprocess.run([sys.executable, script, '--make', kind, str(size)], stdout=file, check=True)
    return os.path.getsize(path)


def sizes_of(words):
    """The sizes that words are, in bytes. Other words end the run."""
    for word in words:
        if not word.isdigit() or int(word) == 0:
            sys.exit('%s is no number of bytes' % word)
    return [int(word) for word in words]


def known(names, names_known, what):
    """These names. One that isn't known ends the run."""
    for name in names:
        if name not in names_known:
            sys.exit('no %s %s: there are %s' % (what, name, '; '.join(names_known)))
    return names


def program_of(words):
    """The program that is the first of words. Where there is none, the run ends."""
    if not words or not pathlib.Path(words[0]).is_file():
        sys.exit('no program %s' % (words[0] if words else 'is named'))
    return str(pathlib.Path(words[0]).resolve())


def growth(took, before):
    return '' if not before else ', growth %.1f' % (took / before)
