#!/usr/bin/env python3
"""Rows of texts and files through the built programs `resb_tool` and `resb`.

Each file of tests/rows says in its first lines what its rows are. All expected values come from the
rules of texts and of files, or from ICU's programs. The last line is 'N passed, M failed'.
"""
import json
import os
import re
import struct
import subprocess
import sys
import tempfile

TOP = os.path.dirname(os.path.dirname(os.path.abspath(__file__)))
TOOL = f'{TOP}/crates/resb_tool/out/resb_tool'
RESB = f'{TOP}/crates/resb_cli/out/resb_cli'
# what each file begins with
HEADER = bytes.fromhex('2000da2714000000000002005265734202000000010400000000000000000000')
REFUSED = 'Parse error while reading text bundle:\nat byte {}: expected {}\n'
# what `resb` says in place of what was expected
OWN_WORDS = {'the end of the text': ': the bundle ends before this, and a text has only one'}
counts = {True: 0, False: 0}


def seen(holds, what):
    """Counts a row, and prints it where it failed."""
    counts[bool(holds)] += 1
    if not holds:
        print(f'FAILED: {what}')
    return holds


def ran(*words, given=b''):
    """The status, standard output and standard error of a program."""
    done = subprocess.run(words, input=given, capture_output=True, check=False)
    return done.returncode, done.stdout, done.stderr


def rows_of(name, end=';\n', mark=' =>'):
    """The rows of a file of tests/rows: what is asked, where '␍' is a carriage return and '␊' a
    line feed, and what is wanted."""
    with open(f'{TOP}/tests/rows/{name}', encoding='utf-8', newline='') as it:
        text = re.sub(r'(?m)^# .*\n', '', it.read())
    for row in text.split(end)[:-1]:
        asked, _, wanted = row.partition(mark)
        yield asked.replace('␍', '\r').replace('␊', '\n'), wanted


def written(name, content):
    """Writes a file of the folder, and gives its name."""
    with open(name, 'wb') as it:
        it.write(content.encode() if isinstance(content, str) else content)
    return name


def compiled(text, name='b', *words):
    """The file of a text, by `resb compile`, and what was said."""
    status, _, said = ran(RESB, 'compile', written(f'{name}.txt', text), *words)
    if status:
        return None, said.decode()
    with open(f'{name}.res', 'rb') as it:
        return it.read(), said.decode()


def json_of(file):
    """The JSON of a file's tree, by `resb dump --json`: its bytes, or else the message."""
    status, out, said = ran(RESB, 'dump', '--json', '-', given=file)
    return out if status == 0 else said


def value_of(answer):
    """The value of some JSON; none where a program answered a message in its place."""
    try:
        return json.loads(answer)
    except ValueError:
        return None


def is_read_back(file, form=()):
    """Whether a file's text, as it is printed, is compiled to a file of the same tree and text."""
    status, text, _ = ran(RESB, 'dump', *form, '-', given=file)
    again, _ = compiled(text.decode(), 'again', *form)
    same = ran(RESB, 'dump', *form, '-', given=again or b'')[1] == text
    return status == 0 and again is not None and same and json_of(again) == json_of(file)


def is_same_in_icu(text, file):
    """Whether a text has one tree in both forms; then it has one file too."""
    other, _ = compiled(text, 'icu', '--icu')
    if other is None or json_of(other) != json_of(file):
        return False
    return seen(other == file, f"in ICU's form: {text}")


def files():
    """Texts and their files, from both programs; what is compiled is read back."""
    same = 0
    for text, wanted in rows_of('files.txt'):
        digits = HEADER.hex() + ''.join(wanted.split())
        status, out, _ = ran(TOOL, given=text.encode())
        seen(status == 0 and out.decode() == digits + '\n', f'resb_tool: {text}')
        file, _ = compiled(text)
        if seen(file == bytes.fromhex(digits), f'resb compile: {text}'):
            seen(is_read_back(file), f'read back: {text}')
            same += is_same_in_icu(text, file)
    seen(same >= 20, f"texts that have one file in both forms: {same}")
    for text, wanted in rows_of('aliases.txt'):
        file, said = compiled(text, 'b', '--icu')
        digits = HEADER.hex() + ''.join(wanted.split())
        if seen(file == bytes.fromhex(digits), f"resb compile --icu: {text}: {said}"):
            seen(is_read_back(file, ['--icu']), f"read back in ICU's form: {text}")


def far_text(table):
    """The text of a table with far keys, and its JSON."""
    if table == 'numbers':
        entries = {f'{number:05}': 0 for number in range(65536)}
        return 'b{' + ''.join(f'{key}:int{{0}}' for key in entries) + '}', entries
    count, keys = table.split(' ')
    entries = {'K' * int(count) if key == 'L' else 'z': 'x' if key == 'L' else 'y' for key in keys}
    return 'b{' + ''.join(f'{key}{{{value}}}' for key, value in entries.items()) + '}', entries


def far():
    """Tables with far keys, which are read back."""
    for asked, wanted in rows_of('far.txt'):
        table, numbers = asked.split(' | ')
        text, entries = far_text(table)
        file = compiled(text)[0] or b''
        words = [file[32 + 4 * int(it):][:4] for it in numbers.split()]
        found = [str(len(file)), *(f"{int.from_bytes(it, 'little'):x}" for it in words)]
        seen(found == wanted.split(), f'{asked}: {found}')
        seen(value_of(json_of(file)) == entries, f'read back: {asked}')


def tree_of(words):
    """A tree as the rows of texts write it, as JSON has it, numbers with their sign: 'x', [ .. ],
    { k: .. }, < bytes >, a number of 28 bits, ( numbers of 32 bits )."""
    word = words.pop(0)
    if word == '[':
        items = []
        while words[0] != ']':
            items.append(tree_of(words))
        words.pop(0)
        return items
    if word == '{':
        entries = {}
        while words[0] != '}':
            key = words.pop(0)[:-1]
            entries[key] = tree_of(words)
        words.pop(0)
        return entries
    if word in '<(':
        end = words.index('>' if word == '<' else ')')
        numbers = [int(it) for it in words[:end]]
        del words[:end + 1]
        if word == '<':
            return {'binary': bytes(numbers).hex()}
        return [signed(it, 32) for it in numbers]
    return word[1:-1] if word[0] == "'" else signed(int(word), 28)


def signed(number, bits):
    """A number of so many bits, with its sign."""
    half = 2 ** (bits - 1)
    return (number + half) % (2 * half) - half


def head_of(file):
    """Whether a file has fallback, and its keys as they lie in it."""
    _, count, keys_end, _, _, _, attributes = struct.unpack_from('<7I', file, 32)
    keys = file[36 + 4 * count:32 + 4 * keys_end].split(b'\0')[:-1]
    return attributes & 1 == 0, [it.decode() for it in keys]


def is_bundle(file, wanted):
    """Whether a file has the flag, the tree and the keys of a bundle, as rows of texts write it: a
    file has the keys that are used, in the order in which they are discovered."""
    head, _, rest = wanted.partition(': ')
    shown, _, keys = rest.rpartition(', keys')
    words = re.findall(r"'[^']*'|[^\s:]*:|[^\s]+", shown)
    used = {it[:-1] for it in words if it.endswith(':')}
    listed = [it for it in keys.split() if it in used]
    has_fallback = not head.endswith(' without fallback')
    return head_of(file) == (has_fallback, listed) and value_of(json_of(file)) == tree_of(words)


def texts():
    """Texts and the bundles of their files, which are printed and read back, in ICU's form too."""
    for text, wanted in rows_of('texts.txt', mark=' => '):
        name = wanted.partition(': ')[0].removesuffix(' without fallback')
        file, said = compiled(text, name, '--by-name')
        if not seen(file, f'compile: {text}: {said}'):
            continue
        seen(is_bundle(file, wanted), f'bundle of {text}: {json_of(file)}')
        os.remove(f'{name}.res')
        seen(is_read_back(file), f'printed: {text}')
        if ran(RESB, 'dump', '--icu', '-', given=file)[2] == b'':
            seen(is_read_back(file, ['--icu']), f"printed in ICU's form: {text}")


def refusals():
    """Texts and the places where they are refused."""
    for text, wanted in rows_of('refusals.txt', mark=' => '):
        place, _, expected = wanted.removeprefix('at ').partition(': ')
        status, out, said = ran(TOOL, given=text.encode())
        told = REFUSED.format(place, expected)
        seen((status, out, said.decode()) == (1, b'', told), f'resb_tool: {text}')


def limits():
    """Texts that are read within limits of bytes, or refused."""
    for asked, wanted in rows_of('limits.txt', mark=' => '):
        limit, text = asked.split(' ', 1)
        file, said = compiled(text, 'b', '--limit', limit)
        if wanted.endswith('the limit'):
            line = f'b.txt: reading this text takes more than the limit of {limit} bytes\n'
            seen(file is None and said == line, f'{asked}: {said}')
        elif wanted.startswith('at '):
            expected = wanted.partition(': ')[2]
            line = OWN_WORDS.get(expected, f': expected {expected}')
            seen(file is None and line in said, f'{asked}: {said}')
        else:
            seen(file and is_bundle(file, wanted), f'{asked}: {said}')


def nested():
    """Groups in one another: closed ones, open ones, and deep trees that are printed."""
    for depth, within, length, count in ((994, '"x" "yz"', 8040, 997),
                                         (1000000, '', 8000072, 1000001)):
        file, _ = compiled('b{a' + '{' * depth + within + '}' * depth + '}')
        said = ran(TOOL, 'check', written('deep.res', file or b''))[1]
        holds = len(file or b'') == length and said == f'ok {count} resources\n'.encode()
        seen(holds, f'{depth} closed groups')
    for depth, within, closing, place, expected in ((994, '"x" "yz"', '}', 1999, "'}'"),
                                                    (2000, '', '', 2003, 'a resource'),
                                                    (5000000, '', '', 5000003, 'a resource')):
        text = 'b{a' + '{' * depth + within + closing * depth
        said = ran(TOOL, given=text.encode())[2].decode()
        seen(said == REFUSED.format(place, expected), f'{depth} open groups')
    file, _ = compiled('b{a' + '{' * 5000 + '}' * 5000 + '}')
    seen(is_read_back(file), 'a deep tree is printed')
    seen(is_read_back(file, ['--icu']), "a deep tree is printed in ICU's form")


def location(text, place):
    """The line and the column of a place in a text, both from 1, of bytes."""
    lines = text.encode()[:place].split(b'\n')
    return f'{len(lines)}:{len(lines[-1]) + 1}'


def answers():
    """Texts through each command of `resb`, or the place where each is refused."""
    for asked, wanted in rows_of('bundles.txt', mark=' => '):
        path, limit, text = asked.split(' ', 2)
        words = ['--icu'] if limit == 'icu' else [] if limit == '0' else ['--limit', limit]
        file, said = compiled(text, 'b', *words)
        place = re.fullmatch(r'(.*) (Nowhere|(At|Open)\((\d+)\))', wanted)
        if place:
            column = '' if place[2] == 'Nowhere' else f'{location(text, int(place[4]))}:'
            inside = ' before the text ends inside this' if place[3] == 'Open' else ''
            line = f'b.txt:{column} {place[1]}{inside}\n'
            seen(file is None and said.startswith(line), f'{asked}: {said}')
            continue
        count, largest, fallback, shown = wanted.split(' ', 3)
        fallback = 'fallback' if fallback == 'true' else 'no fallback'
        line = f'b.res: {count} resources, format 2.0, {fallback}, largest table {largest}\n'
        seen(ran(RESB, 'check', 'b.res') == (0, line.encode(), b''), f'check: {asked}')
        kept = ['--limit', limit] if limit.isdigit() and limit != '0' else []
        out = ran(RESB, 'dump', '--json', 'b.res', *kept)[1].decode()[:-1]
        if not seen(shown.startswith(out + ' '), f'dump: {asked}: {out}'):
            continue
        found = shown[len(out) + 1:]
        status, out, said = ran(RESB, 'get', 'b.res', path, *kept)
        if found == 'nothing':
            holds = (status, said.decode()) == (1, f'b.res: nothing stands at {path}\n')
        else:
            text = json.loads(found) if found.startswith('"') else found
            holds = status == 0 and out.decode() == f'{text}\n'
        seen(holds, f'get: {asked}')


def file_of(text, *words):
    """The file of a text; or of the words that are given."""
    if re.fullmatch('[0-9a-f ]+', text):
        numbers = [int(it, 16).to_bytes(4, 'little') for it in text.split()]
        return HEADER + b''.join(numbers)
    return compiled(text, 'b', *words)[0] or b''


def printed_file(form, text):
    """The form in which the file of a row is printed, and the file; in that of a text of the plain
    form an apostrophe is a quote."""
    form, _, other = form.partition(' of ')
    if other:
        return form, file_of(text, '--icu')
    file = file_of(text)
    return form, file[:len(HEADER)] + file[len(HEADER):].replace(b"'", b'"')


def printed():
    """Files and the texts that they are printed as, or why they have none."""
    for asked, wanted in rows_of('printed.txt', mark=' =>\n'):
        form, name, text = asked.split(' | ', 2)
        form, content = printed_file(form, text)
        words = ['--icu'] if form == 'icu' else []
        file = written(f'{name}.res', content)
        status, out, said = ran(RESB, 'dump', *words, file)
        seen((status, out.decode(), said) == (0, wanted, b''), f'{asked}: {out.decode()}')
    for asked, wanted in rows_of('causes.txt', mark=' => '):
        form, name, text = asked.split(' | ', 2)
        form, content = printed_file(form, text)
        words, what = (['--icu'], "text in ICU's form") if form == 'icu' else ([], 'text')
        file = written(f'{name}.res', content)
        status, out, said = ran(RESB, 'dump', *words, file)
        line = f'{file}: this has no {what}, since {wanted}; here is its JSON\n'
        is_json = out == ran(RESB, 'dump', '--json', file)[1]
        seen(status == 0 and said.decode() == line and is_json, f'{asked}: {said.decode()}')


def shown():
    """Texts of ICU's form, their JSON and their warnings, and what differs between two texts."""
    for text, wanted in rows_of('json.txt', mark=' => '):
        file, said = compiled(text, 'b', '--icu')
        seen(file and json_of(file) == f'{wanted}\n'.encode(), f'JSON of {text}: {said}')
    for text, wanted in rows_of('warnings.txt', mark=' => '):
        file, said = compiled(text, 'b', '--icu')
        found = [it for it in said.split('\n') if it.startswith('b.txt:')]
        place, _, what = wanted.partition(' ')
        lines = [f'b.txt:{location(text, int(place))}: warning: {what}'] if what else []
        seen(file and found == lines, f'warnings of {text}: {said}')
    for asked, wanted in rows_of('diffs.txt', mark=' =>\n'):
        old, new = asked.split(' | ')
        old, new = written('old.res', file_of(old)), written('new.res', file_of(new))
        answer = ran(RESB, 'diff', old, new)
        seen(answer == (1 if wanted else 0, wanted.encode(), b''), f'{asked}: {answer}')


FILTERED = 'r{a{x{"ax"}y{"ay"}z{p{"azp"}q{"azq"}}}b{x{"bx"}y{"by"}}c{"c"}}'


def left_by(rules):
    """The JSON of what rules leave of that text, or what is wrong with them."""
    written('rules/r.txt', rules)
    words = ['genrb', '-q', '-s', '.', '-d', '.', '--filterDir', 'rules', 'r.txt']
    status, _, said = ran(RESB, *words)
    if status:
        return said.decode().removeprefix('rules/r.txt: ').rstrip('\n')
    with open('r.res', 'rb') as it:
        return json_of(it.read()).decode().rstrip('\n')


def filters():
    """Rules, and what they leave of a text."""
    os.mkdir('rules')
    written('r.txt', FILTERED)
    for rules, wanted in rows_of('filters.txt', mark=' => '):
        found = left_by(rules)
        seen(found == wanted, f'rules {rules!r}: {found}')
    found = left_by('-' + '/a' * 20000)
    seen(found.startswith('{'), f'a path of 20000 pieces: {found}')


def main():
    """Asks each row of the programs."""
    for program in (TOOL, RESB):
        if not os.access(program, os.X_OK):
            print(f"{program} isn't built\n0 passed, 1 failed")
            return 1
    with tempfile.TemporaryDirectory() as folder:
        os.chdir(folder)
        for part in (files, far, texts, refusals, limits, nested, answers, printed, shown, filters):
            part()
    print(f'{counts[True]} passed, {counts[False]} failed')
    return 1 if counts[False] else 0


if __name__ == '__main__':
    if sys.argv[1:] == ['--help']:
        sys.exit(print(__doc__))
    sys.exit(main())
