#!/usr/bin/env python3
"""Minutes of processor that a run takes, by crate and kind, and how fast the machine is.

    gate_time.py [--log FILE] [COMMAND..]   runs the command, ./test if none is named, and prints
    gate_time.py --read FILE                prints what a run logged

Kinds are proof, tests, and wrong bodies (with the checks that those of `rt ci` begin with). Once a
second it looks at the checks that run below the command, and takes the last that it saw of each, so
that a check loses up to a second. A check is a process `rattle` with what it has started. All else
(what the programs and scripts take, and what no look saw) is the difference to what the system
counts of the command. Wrong words end it with status 2; else it
ends as the command does.

The speed is that of 20,000,000 rounds of `s += i * i & 7` in Python, before the run: the
budget in CONTRIBUTING is for a machine on which they take 2.5 to 3.1 seconds.
"""
import argparse
import collections
import json
import os
import resource
import subprocess
import sys
import time

KINDS = ('proof', 'tests', 'wrong bodies')
TICKS = os.sysconf('SC_CLK_TCK')
REFERENCE = 2.8


def seconds_of_loop():
    """Processor seconds of the loop by which machines are compared."""
    begun, total = time.process_time(), 0
    for i in range(20_000_000):
        total += i * i & 7
    return time.process_time() - begun


def words_of(process):
    """A process's words, its parent, its start, its processor seconds and its folder."""
    with open(f'/proc/{process}/cmdline', encoding='utf-8', errors='replace') as it:
        words = it.read().split('\0')
    with open(f'/proc/{process}/stat', encoding='utf-8', errors='replace') as it:
        numbers = it.read().rpartition(')')[2].split()
    seconds = (int(numbers[11]) + int(numbers[12])) / TICKS
    return words, numbers[1], numbers[19], seconds, os.readlink(f'/proc/{process}/cwd')


def kind_of(words, folder):
    """What a check is for."""
    if '/rt-edit-' in folder or '/wrong-bodies-' in folder:
        return KINDS[2]
    is_tests = '--test' in words or any(it.endswith('_tests.o') for it in words)
    return KINDS[1] if is_tests else KINDS[0]


def look(top, seen):
    """Notes the processor seconds of each check that runs below the process `top`, with those of
    the processes that it has started."""
    parents, checks, seconds_of = {}, {}, {}
    for process in filter(str.isdigit, os.listdir('/proc')):
        try:
            words, parent, start, seconds, folder = words_of(process)
        except (OSError, IndexError):
            continue
        parents[process], seconds_of[process, start] = parent, seconds
        if os.path.basename(words[0]) == 'rattle' and '--crate-name' in words:
            crate = words[words.index('--crate-name') + 1]
            checks[process] = crate, kind_of(words, folder)
    for (process, start), seconds in seconds_of.items():
        at, check = process, None
        while at in parents and at != str(top):
            check = checks.get(at, check)
            at = parents[at]
        if check and at == str(top):
            seen[process, start] = *check, seconds


def run(command):
    """Runs a command, and gives its status and what it took."""
    speed = seconds_of_loop()
    begun, seen = time.monotonic(), {}
    with subprocess.Popen(command) as child:
        while child.poll() is None:
            look(child.pid, seen)
            time.sleep(1)
    used = resource.getrusage(resource.RUSAGE_CHILDREN)
    parts = collections.Counter()
    for crate, kind, seconds in seen.values():
        parts[crate, kind] += seconds
    return child.returncode, {
        'command': command, 'loop': speed, 'clock': time.monotonic() - begun,
        'processor': used.ru_utime + used.ru_stime,
        'parts': [[*key, seconds] for key, seconds in parts.items()]}


def told(took):
    """Prints what a run took: minutes by crate and kind, the dearest crate first."""
    rows = collections.defaultdict(collections.Counter)
    for crate, kind, seconds in took['parts']:
        rows[crate][kind] += seconds / 60
    print(f"{'crate':20}" + ''.join(f'{it:>14}' for it in (*KINDS, 'in all')))
    for crate, row in sorted(rows.items(), key=lambda it: -it[1].total()):
        print(f'{crate:20}' + ''.join(f'{row[it]:14.1f}' for it in KINDS) + f'{row.total():14.1f}')
    sums = [sum(row[it] for row in rows.values()) for it in KINDS]
    print(f"{'all crates':20}" + ''.join(f'{it:14.1f}' for it in (*sums, sum(sums))))
    whole, share = took['processor'] / 60, REFERENCE / took['loop']
    print(f"{'all else':20}{max(whole - sum(sums), 0):56.1f}")
    print(f"{whole:.1f} minutes of processor in {took['clock'] / 60:.1f} minutes; the loop takes "
          f"{took['loop']:.2f} s here, so that this is {whole * share:.1f} minutes of a machine on "
          f'which it takes {REFERENCE} s')


def main():
    """Runs the command that the words name, or reads a log."""
    given = argparse.ArgumentParser(usage=__doc__)
    given.add_argument('--log', metavar='FILE')
    given.add_argument('--read', metavar='FILE')
    given.add_argument('command', nargs=argparse.REMAINDER)
    words = given.parse_args()
    if words.read:
        try:
            with open(words.read, encoding='utf-8') as it:
                told(json.load(it))
        except (OSError, ValueError, KeyError) as error:
            given.exit(2, f'gate_time.py: {words.read} is no log of a run: {error}\n')
        return 0
    command = words.command or [os.path.join(os.path.dirname(__file__), '..', 'test')]
    try:
        status, took = run(command)
    except OSError as error:
        given.exit(2, f'gate_time.py: {command[0]} cannot be run: {error}\n')
    if words.log:
        with open(words.log, 'w', encoding='utf-8') as it:
            json.dump(took, it)
    told(took)
    return status


if __name__ == '__main__':
    sys.exit(main())
