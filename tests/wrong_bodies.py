#!/usr/bin/env python3
"""Tries each wrong body, and says for which goal it is refused.

    wrong_bodies.py [--jobs N] [--logs FOLDER] [--without-answers] [CRATE | CRATE/EDIT]..
    wrong_bodies.py --gate [--jobs N] [--logs FOLDER]     those of tests/gate_bodies.txt
    wrong_bodies.py --standing     only looks whether each can be applied: no proof, a second

A wrong body is a file EDIT.edit of crates/CRATE/must-fail, which `rt ci` tries too, or of
crates/CRATE/wrong-bodies, which this script alone does. Each is applied to a copy of the repository
in a temporary folder, never in place, and the copy takes over what out/ keeps, so that little more
than the changed function is proved. First each crate is checked as it stands. N checks run side by
side (1 if left out); --logs keeps what each of them printed.
With --gate those of a crate are tried together, by a check of the functions that
tests/gate_bodies.txt names beside them, and of those that these call, over the libraries that
`rt ci` has built: what a function is refused for depends on its own body alone. Two that change one
function are tried one after the other. What they don't change has to be proved there. N crates are
tried side by side.

A line for each wrong body has the crate, the edit, the kind of the goal, the goal, and how it was
refused. The kinds:

    contract   what the changed function promises
    caller     what a called function asks for, or a goal of a function that calls the changed one
    invariant  of a loop, a recursion or a type
    safety     an index in range, a number that fits, a place that isn't reached
    name       nothing but a proof file that names what the edit took away, or that isn't there

How: 'false' (the check found values at which the goal is false), 'open' (no tactic proves it),
'answer' (its answer in proofs/ proves another statement, and where the two differ).
An edit of the kind 'name' shows nothing, since a right body written in another way would be refused
with the same words. It fails, and so does an edit that is not refused or can't be applied. Where an
edit has lines 'same: TEXT' below its 'new:' lines, these texts are such a right body, which has to
be proved.
With --without-answers, an edit that is refused by an answer alone is tried once more with that
answer taken out: the goal must then be false or open, and a wrong body that is proved so fails. The
right body is tried without it too: where it is proved, the difference is the edit's meaning.
The last line is 'N passed, M failed'.
"""
import argparse
import concurrent.futures
import itertools
import os
import queue
import re
import shutil
import subprocess
import sys
import tempfile

ROOT = os.path.dirname(os.path.dirname(os.path.abspath(__file__)))
PARTS = ('src', 'specs', 'proofs')
FOLDERS = ('must-fail', 'wrong-bodies')
GATE_LIST = 'tests/gate_bodies.txt'
MOST_IN_GATE = 70
SAFETY = re.compile(r'(overflow|nonzero|bounds|slice_bounds|offset_bounds)_|(bounds|slice_bounds|'
                    r'offset_bounds)-|.*(unreachable|prove)-requires')
INVARIANT = re.compile(r'.*-(init|preserved|smaller)(-|$)|invariant_of-|(invariant|decreases)-')
MISSING = re.compile(r'has no field|is not in scope|has no `|was not admitted|is no name|no goal|'
                     r'cannot find|unknown name|\(nearest: ')
OPEN = re.compile(r'^note: src/\S+: it is not proved .*?\(`([^`]+)`\)')
REFUSED = re.compile(r'^fn (\S+): ((?:no proof|not proved|could not tell|depends on).*)$')
AT_ANSWER = re.compile(r'^(?:\./)?((proofs/\S+?)/(?:Answers|Invariants|Proof)\.antt):\d+:\d+: '
                       r'error: (?:(`[^`]*`): )?(.*)$')


def libraries():
    """The repository's crates that each crate stands on, by crates.txt."""
    below = {}
    with open(f'{ROOT}/crates.txt', encoding='utf-8') as lines:
        for line in lines:
            name, colon, needs = line.partition('#')[0].partition(':')
            if colon:
                below[name.split()[0]] = needs.split()
    return {name: [it for it in needs if it in below] for name, needs in below.items()}


def all_below(name, below):
    """A crate's libraries and theirs."""
    found = set()
    for it in below[name]:
        found |= {it} | all_below(it, below)
    return found


class Edit:
    """A wrong body: a text of a file of src/, and what stands in its place."""

    def __init__(self, crate, path):
        self.crate, self.path = crate, path
        self.name = os.path.basename(path).removesuffix('.edit')
        self.label = f'{crate}/{self.name}'
        self.steps, self.same, self.function = [], False, None
        file = old = None
        with open(path, encoding='utf-8') as lines:
            for line in lines.read().split('\n'):
                word, _, text = line.partition(': ')
                if word == 'file':
                    file = text.strip()
                elif word == 'old':
                    old = text
                elif line.startswith('new:'):
                    self.steps.append([file, old, text, text])
                elif word == 'same':
                    self.steps[-1][3] = text
                    self.same = True

    def texts(self, right=False, before=None):
        """The files' texts with the wrong body, or with the right one written otherwise, where
        other edits have made the texts `before`."""
        texts = dict(before or {})
        for file, old, new, same in self.steps:
            if file not in texts:
                with open(f'{ROOT}/crates/{self.crate}/{file}', encoding='utf-8') as it:
                    texts[file] = it.read()
            if texts[file].count(old) != 1:
                raise ValueError(f"'old:' stands in {file} {texts[file].count(old)} times")
            texts[file] = texts[file].replace(old, same if right else new)
        return texts

    def modules(self):
        """The modules of the changed files, or none where one is the crate's root."""
        inner = [file.removeprefix('src/').removesuffix('.rt') for file, *_ in self.steps]
        if any(it in ('lib', 'main') for it in inner):
            return []
        return sorted({it.replace('/', '::') for it in inner})

    def functions(self):
        """The names of the functions that the edit changes."""
        found = set()
        for file, old, *_ in self.steps:
            with open(f'{ROOT}/crates/{self.crate}/{file}', encoding='utf-8') as it:
                before = it.read().split(old)[0]
            names = re.findall(r'\bfn (\w+)', before)
            if names and before.count('{') > before.count('}'):
                found.add(names[-1])
        return found

    def changes(self, path):
        """Whether a function that a check names is one that the edit changes or adds."""
        module, name = path.rpartition('::')[0], path.split('::')[-1]
        is_here = any(f'{module}::'.startswith(f'{it}::') for it in self.modules())
        return path == self.function or is_here and name in self.functions() | self.helpers()

    def helpers(self):
        """The names of the functions that the edit adds."""
        found = set()
        for file, _, new, _ in self.steps:
            with open(f'{ROOT}/crates/{self.crate}/{file}', encoding='utf-8') as it:
                stands = set(re.findall(r'\bfn (\w+)', it.read()))
            found |= set(re.findall(r'\bfn (\w+)', new)) - stands
        return found


class Room:
    """A copy of the repository in which one check at a time is made."""

    def __init__(self, folder, below):
        self.folder, self.below, self.made = folder, below, set()
        os.makedirs(f'{folder}/crates')
        for name in ('crates.txt', 'HANDLES'):
            shutil.copy2(f'{ROOT}/{name}', folder)
        for name in below:
            for part in PARTS:
                copy(f'crates/{name}/{part}', folder)

    def hold(self, crate):
        """Has the crate with its kept proofs, and its libraries as they are built."""
        for name in all_below(crate, self.below) - self.made:
            copy(f'crates/{name}/out/rlib', self.folder)
            self.made.add(name)
        for part in PARTS:
            restore(f'{ROOT}/crates/{crate}/{part}', f'{self.folder}/crates/{crate}/{part}')
        kept = f'crates/{crate}/out/incremental'
        restore(f'{ROOT}/{kept}', f'{self.folder}/{kept}')

    def words(self, crate, paths):
        """The command that checks the crate, or these modules and functions of it alone."""
        return ['rt', 'check', '--jobs', '1', '--allow-holes', *only(paths)]

    def check(self, crate, texts, paths):
        """What a check of the crate prints with these texts, and whether it is proved; of all of
        it, or of these modules and functions alone."""
        self.hold(crate)
        for file, text in texts.items():
            with open(f'{self.folder}/crates/{crate}/{file}', 'w', encoding='utf-8') as it:
                it.write(text)
        words = self.words(crate, paths)
        ran = subprocess.run(words, cwd=f'{self.folder}/crates/{crate}', text=True,
                             stdin=subprocess.DEVNULL, stdout=subprocess.PIPE,
                             stderr=subprocess.STDOUT, errors='replace', check=False)
        # the crates above are checked over this one as it stands
        for part in PARTS:
            restore(f'{ROOT}/crates/{crate}/{part}', f'{self.folder}/crates/{crate}/{part}')
        return ran.stdout, ran.returncode == 0


class GateRoom(Room):
    """A copy of the sources, which are checked over the libraries that stand in the repository, by
    the compiler itself: `rt` takes no library for built that it has itself kept for `rt ci`."""

    def __init__(self, folder, below, kit):
        super().__init__(folder, below)
        self.kit = kit

    def hold(self, crate):
        """Has the crate as it stands, and what was proved of it in the room."""
        for part in PARTS:
            restore(f'{ROOT}/crates/{crate}/{part}', f'{self.folder}/crates/{crate}/{part}')

    def words(self, crate, paths):
        """The command that checks these functions of the crate."""
        built = {it: f'{ROOT}/crates/{it}/out/rlib' for it in sorted(all_below(crate, self.below))}
        links = [f'{it}={at}/{it}.rlib' for it, at in built.items()]
        links += [f'{it}={self.kit}/rlibs/{it}.rlib' for it in ('std', *kit_libraries(crate))]
        words = [f'{self.kit}/bin/rattle', 'check', '--crate-name', crate, 'src/lib.rt',
                 '--antt-project', f'{self.kit}/rattle/logic/antt-project.json',
                 '--logic-built', f'{self.kit}/logic_built', '--incremental', 'out/incremental',
                 '--jobs', '1', '--allow-holes', *only(paths)]
        for it in links:
            words += ['--extern', it]
        for it in (f'{self.kit}/rlibs', *built.values()):
            words += ['-L', f'dependency={it}']
        return words


def only(paths):
    """The words by which a check is of these modules and functions alone."""
    return [word for path in paths for word in ('--only', path)]


def kit_libraries(crate):
    """The toolchain's libraries that a crate names."""
    with open(f'{ROOT}/crates.txt', encoding='utf-8') as lines:
        pairs = [it.partition('#')[0].partition(':') for it in lines]
    needs = next(it for name, colon, it in pairs if colon and name.split()[0] == crate)
    return [it for it in needs.split() if not os.path.isdir(f'{ROOT}/crates/{it}')]


def copy(part, to):
    """Copies a folder of the repository, if it stands there."""
    if os.path.isdir(f'{ROOT}/{part}'):
        shutil.copytree(f'{ROOT}/{part}', f'{to}/{part}', dirs_exist_ok=True)


def restore(source, copied):
    """Makes a folder what its source is, and copies no file that is the same already."""
    wanted = {}
    for at, _, files in os.walk(source):
        for name in files:
            path = os.path.join(at, name)
            wanted[os.path.relpath(path, source)] = path
    for at, _, files in os.walk(copied):
        for name in files:
            if os.path.relpath(os.path.join(at, name), copied) not in wanted:
                os.remove(os.path.join(at, name))
    for name, path in wanted.items():
        to, told = os.path.join(copied, name), os.stat(path)
        if os.path.isfile(to):
            has = os.stat(to)
            if (has.st_size, has.st_mtime_ns) == (told.st_size, told.st_mtime_ns):
                continue
        os.makedirs(os.path.dirname(to), exist_ok=True)
        shutil.copy2(path, to)


def kind_of(goal, path, changed):
    """What a goal of a function is about."""
    if SAFETY.match(goal):
        return 'safety'
    if INVARIANT.match(goal):
        return 'invariant'
    is_own = not changed or path.split('::')[-1] in changed
    return 'contract' if is_own and goal.startswith('returns') else 'caller'


class Refusal:
    """What a check that isn't proved says: which goals are open, and which answers don't fit."""

    def __init__(self, said):
        self.false, self.open, self.answers, self.missing = {}, {}, {}, {}
        self.cited = set()
        pending = {}
        for line in said.split('\n'):
            note, refused, answer = OPEN.match(line), REFUSED.match(line), AT_ANSWER.match(line)
            if note:
                pending[note[1]] = 'allow values at which' in line
            elif answer:
                goal = (answer[3] or '?').strip('`')
                self.cited.add((answer[1], goal))
                self.add_answer(answer[2], goal, answer[4])
            elif refused:
                path, why = refused[1].partition('::')[2], refused[2]
                for goal in re.findall(r'`([^`]+)`', why.partition('did not prove')[2]):
                    pending.setdefault(goal, False)
                for goal, is_false in pending.items():
                    (self.false if is_false else self.open)[path, goal] = ''
                pending = {}
                if re.match('no proof', why) and not re.search('did not prove|it calls', why):
                    self.missing[path, 'no proof file'] = why[:150]

    def add_answer(self, folder, goal, why):
        """Has an answer that is refused. One that differs in a step's number alone is a name."""
        found = folder.removeprefix('proofs/').replace('/', '::'), goal
        both = re.search(r'where one has `([^`]*)`.* the other has `([^`]*)`', why)
        numbered = both and re.sub(r'-\d+', '', both[1]) == re.sub(r'-\d+', '', both[2])
        part = self.missing if numbered or MISSING.search(why) else self.answers
        part.setdefault(found, re.sub(r'\s+', ' ', why)[:150])

    def found(self):
        """The goals, those first that say most, each with how it was refused."""
        parts = ((self.false, 'false'), (self.open, 'open'), (self.answers, 'answer'),
                 (self.missing, 'name'))
        return [(path, goal, f'{how}: {why}' if why else how)
                for part, how in parts for (path, goal), why in part.items()]


def without_answers(crate, cited):
    """The texts of the proof files without the answers that are cited, as (file, goal)."""
    texts = {}
    for file, goal in sorted(cited):
        if file not in texts:
            with open(f'{ROOT}/crates/{crate}/{file}', encoding='utf-8') as it:
                texts[file] = it.read()
        texts[file] = re.sub(rf'(?ms)^pub {re.escape(goal)} :.*?(?=^pub |\Z)', '', texts[file])
    return texts


def tried_without_answers(edit, room, refusal):
    """Whether the edit is refused without the answers too, the words that say how, and the log."""
    proofs, modules = without_answers(edit.crate, refusal.cited), edit.modules()
    said, is_proved = room.check(edit.crate, edit.texts() | proofs, modules)
    if is_proved:
        return False, 'proved without the answer', said
    again = Refusal(said)
    how = 'false' if again.false else 'open' if again.open else 'refused'
    told, is_right = room.check(edit.crate, proofs, modules)
    right = 'the right body is proved' if is_right else 'the right body needs the answer'
    return True, f'without the answer: {how}; {right}', f'{said}\n-- the right body\n{told}'


def first_error(said):
    """The first error that a check printed, or its end."""
    return next((it for it in said.split('\n') if 'error' in it), said[-200:])[:160]


def judged(edit, room, without=False):
    """Whether a wrong body is refused as it must be, and the line that says so."""
    label = edit.label
    try:
        texts = edit.texts()
    except (OSError, ValueError) as error:
        return False, f'{label}: cannot be applied: {error}', ''
    modules = edit.modules()
    said, proved = room.check(edit.crate, texts, [edit.function] if edit.function else modules)
    if proved and modules and not edit.function:
        said, proved = room.check(edit.crate, texts, [])
    if proved:
        return False, f'{label}: not refused', said
    refusal = Refusal(said)
    found = refusal.found()
    if not found:
        return False, f'{label}: it did not reach the prover: {first_error(said)}', said
    is_well, line = named(edit, found)
    if not is_well:
        return False, line, said
    if edit.same:
        told, is_proved = room.check(edit.crate, edit.texts(right=True), modules)
        said += '\n-- the right body written otherwise\n' + told
        if not is_proved:
            return False, f'{line}; the right body written otherwise is refused too', said
        line += '; the right body written otherwise is proved'
    if without and '(answer' in line:
        is_well, words, told = tried_without_answers(edit, room, refusal)
        said += f'\n-- without the answer\n{told}'
        line += f'; {words}'
    return is_well, line, said


def named(edit, found):
    """Whether the goals by which a wrong body is refused show its meaning, and the line that says
    the first of them."""
    for path, goal, _ in found:
        if path.split('::')[-1] in edit.helpers():
            return False, f'{edit.label}: its own helper is not proved: {goal} of {path}'
    changed = edit.functions()
    kinds = [(kind_of(goal, path, changed), path, goal, how) for path, goal, how in found]
    if all(it[2].startswith('name') for it in found):
        kinds = [('name', *it[1:]) for it in kinds]
    kind, path, goal, how = next((it for it in kinds if it[0] == 'contract'), kinds[0])
    return kind != 'name', f'{edit.label}: {kind}: {goal} of {path} ({how})'


def combined(group, right=False):
    """The texts with all these wrong bodies, or with the right ones written otherwise."""
    texts = {}
    for edit in group:
        texts = edit.texts(right, texts)
    return texts


def can_join(edit, group):
    """Whether a wrong body can be tried by one check with others of its crate: each changes
    functions alone, which no other one changes."""
    shared = {name for it in group for name in it.functions() | it.helpers()}
    if not all(it.functions() for it in [edit, *group]):
        return False
    if shared & (edit.functions() | edit.helpers()):
        return False
    try:
        combined([*group, edit])
    except ValueError:
        return False
    return all(it.function != edit.function for it in group)


def rounds(edits):
    """The wrong bodies of a crate in as few checks as can be."""
    found = []
    for edit in edits:
        group = next((it for it in found if can_join(edit, it)), None)
        if group is None:
            found.append([edit])
        else:
            group.append(edit)
    return found


def judged_together(group, room):
    """Each of the wrong bodies that one check tries, whether it is refused as it must be, the line
    that says so, and the log."""
    crate, paths = group[0].crate, sorted({it.function for it in group})
    said, _ = room.check(crate, combined(group), paths)
    found = Refusal(said).found()
    others = [it for it in found if not any(edit.changes(it[0]) for edit in group)]
    again = [it for it in group if it.same]
    are_right = not again or room.check(crate, combined(again, right=True),
                                        sorted({it.function for it in again}))[1]
    for edit in group:
        goals = [it for it in found if edit.changes(it[0])]
        if others:
            path, goal, how = others[0]
            is_well = False
            line = f'{edit.label}: {path} is not proved as it stands: {goal} ({how})'
        elif not found:
            is_well, line = False, f'{edit.label}: it did not reach the prover: {first_error(said)}'
        elif not goals:
            is_well, line = False, f'{edit.label}: not refused'
        else:
            is_well, line = named(edit, goals)
        if edit.same and not are_right:
            is_well, line = False, f'{line}; a right body written otherwise is refused too'
        yield edit, is_well, line, said


def chosen(words, below):
    """The wrong bodies that the words name, or all, by crate and name."""
    found = []
    for crate in below:
        folders = [f'{ROOT}/crates/{crate}/{it}' for it in FOLDERS]
        paths = [f'{it}/{name}' for it in folders if os.path.isdir(it) for name in os.listdir(it)]
        paths = [it for it in paths if it.endswith('.edit')]
        found += [Edit(crate, it) for it in sorted(paths, key=os.path.basename)]
    if not words:
        return found
    kept = [it for it in found if it.crate in words or f'{it.crate}/{it.name}' in words]
    known = {it.crate for it in kept} | {f'{it.crate}/{it.name}' for it in kept}
    for word in words:
        if word not in known:
            sys.exit(f'wrong_bodies: no wrong body is named {word}')
    return kept


def of_gate(below):
    """The wrong bodies that tests/gate_bodies.txt names, each with the function that is checked."""
    edits = chosen([], below)
    by_name = {it.label: it for it in edits}
    found = []
    with open(f'{ROOT}/{GATE_LIST}', encoding='utf-8') as lines:
        for name, function in (it.split() for it in lines if it.strip() and not it.startswith('#')):
            if name not in by_name:
                sys.exit(f'wrong_bodies: {GATE_LIST} names {name}, which there is not')
            by_name[name].function = function
            found.append(by_name[name])
    return found


def has_function(edit):
    """Whether the function that the gate checks for a wrong body stands in a file that the wrong
    body changes: a check of one that isn't there refuses nothing."""
    name = re.compile(rf'\bfn {re.escape(edit.function.split("::")[-1])}\b')
    for file, *_ in edit.steps:
        with open(f'{ROOT}/crates/{edit.crate}/{file}', encoding='utf-8') as it:
            if name.search(it.read()):
                return True
    return False


def standing(edits, below):
    """Whether each wrong body can be applied, each function that the gate checks is there, and no
    more are in the gate than its budget has."""
    passed, failed = 0, 0
    for edit in of_gate(below):
        if not has_function(edit):
            print(f'FAILED: {edit.label}: {GATE_LIST} names {edit.function}, which there is not')
            failed += 1
    for edit in edits:
        try:
            edit.texts()
            passed += 1
        except (OSError, ValueError) as error:
            print(f'FAILED: {edit.crate}/{edit.name}: cannot be applied: {error}')
            failed += 1
    in_gate = sum(os.path.basename(os.path.dirname(it.path)) == FOLDERS[0] for it in edits)
    in_gate += len(of_gate(below))
    if in_gate > MOST_IN_GATE:
        print(f'FAILED: {in_gate} wrong bodies are in the gate, of at most {MOST_IN_GATE}')
        failed += 1
    print(f'{passed} passed, {failed} failed')
    return 1 if failed else 0


def of_crates(edits):
    """The wrong bodies of each crate, the most first: what they share is proved once."""
    found = {}
    for edit in edits:
        found.setdefault(edit.crate, []).append(edit)
    return sorted(found.values(), key=lambda it: -len(it))


def kit():
    """The toolchain's folder, where its first page stands."""
    page = subprocess.run(['rt', 'doc'], text=True, stdout=subprocess.PIPE, check=True).stdout
    return os.path.dirname(page.strip())


def checked_first(crates):
    """Checks each crate as it stands, so that out/ keeps its proofs, and gives those not proved."""
    bad = []
    for crate in crates:
        ran = subprocess.run(['rt', 'check'], cwd=f'{ROOT}/crates/{crate}', check=False,
                             stdin=subprocess.DEVNULL, stdout=subprocess.PIPE,
                             stderr=subprocess.STDOUT)
        if ran.returncode:
            print(f'{crate}: is not proved as it stands', flush=True)
            bad.append(crate)
    return bad


def main():
    """Tries the wrong bodies that the command names."""
    words = argparse.ArgumentParser(usage=__doc__)
    words.add_argument('--jobs', type=int, default=1)
    words.add_argument('--logs')
    words.add_argument('--without-answers', action='store_true')
    words.add_argument('--standing', action='store_true')
    words.add_argument('--gate', action='store_true')
    words.add_argument('names', nargs='*')
    given = words.parse_args()
    below = libraries()
    edits = chosen(given.names, below)
    if given.standing:
        return standing(edits, below)
    if given.gate:
        bad, edits = [], [it for it in of_gate(below) if it.label in {e.label for e in edits}]
    else:
        bad = checked_first(dict.fromkeys(it.crate for it in edits))
        edits = [it for it in edits if it.crate not in bad]
    passed, failed = 0, len(bad)
    if given.logs:
        os.makedirs(given.logs, exist_ok=True)
    with tempfile.TemporaryDirectory(prefix='wrong-bodies-') as folder:
        rooms = queue.Queue()
        for number in range(given.jobs):
            place = f'{folder}/{number}'
            rooms.put(GateRoom(place, below, kit()) if given.gate else Room(place, below))

        def tried(group):
            room = rooms.get()
            try:
                if given.gate:
                    return [it for some in rounds(group) for it in judged_together(some, room)]
                return [(it, *judged(it, room, given.without_answers)) for it in group]
            finally:
                rooms.put(room)

        with concurrent.futures.ThreadPoolExecutor(given.jobs) as pool:
            groups = of_crates(edits) if given.gate else [[it] for it in edits]
            for edit, is_well, line, said in itertools.chain.from_iterable(pool.map(tried, groups)):
                print(line if is_well else f'FAILED: {line}', flush=True)
                passed, failed = passed + is_well, failed + (not is_well)
                if given.logs:
                    file = f'{given.logs}/{edit.crate}.{edit.name}.log'
                    with open(file, 'w', encoding='utf-8') as it:
                        it.write(said)
    print(f'{passed} passed, {failed} failed')
    return 1 if failed else 0


if __name__ == '__main__':
    sys.exit(main())
