#!/usr/bin/env python3
"""Hostile texts, whose reading makes much, through `resb compile --limit`, in both forms.

    hostile_texts.py [BYTES..]      texts of about so many bytes each; if none is named, seven
                                    sizes, and some of each kind at an eighth

Members of each kind fill a group without a type, an array, and a table that has one key again and
again; groups of each kind stand inside each other; and there is one long thing of each kind. In
ICU's form the keys of that table differ, since it is refused where one stands again, and strings
are put together of pieces and escapes as well. Each text compiles within just as many bytes as
docs/GRAMMAR.md or docs/ICU_TEXTS.md ("Within a limit") counts for it, and is refused within one
byte less, and within a tenth, with status 1 and the one line that says so. A text of more than
1 MiB that is longer than its limit is refused before it is read, as the large ones of comments,
blanks, digits and escapes are, and then shows no more than that. No run may take more memory than
1.5 times the limit and the text, 1.7 MB for what its allocator keeps, and what the program itself
has for a text of 7 bytes, some 2.3 MB; nor, for a text of up to 2 MB, more than the limit, the text
and 10 MB. How much of its file is mapped differs from run to run, so that the least of five counts
where one has more. A binary of 1 MiB of digits, refused
within a small limit, takes no more than a comment of that length, and 0.2 MB. A run is started by
a program in C that is smaller than that, since what starts a program counts as its memory; `cc`
builds it. The last line is 'N passed, M failed'.
"""
import os
import shutil
import subprocess
import sys
import tempfile

from hostile import RESB, counts, seen

SIZES = [300, 1_000, 3_000, 10_000, 60_000, 250_000, 2_000_000]
LARGE = 8_000_000
LEAST_READ = 1 << 20
# what a draft is counted for
GROUP, STRING, BYTE, TABLE, NUMBER, REQUEST = 88, 112, 3, 64, 8, 32
A_STRING = STRING + BYTE
# b{v..}: the root with its `{` and `}`, and its key
ROOT = GROUP + TABLE + A_STRING
# what the program's allocator keeps
KEPT = 1_700_000
# what a text of up to so many bytes may take beside it and its limit, the program's own included
MOST_BESIDE, UP_TO = 10_000_000, 2_100_000
# the memory of the program for a text of 7 bytes
own = []
# by how much the memory of two runs over texts of one length may differ: the bytes of the digits
# alone are half of LEAST_READ
APART = 400_000
# runs a program, and writes to a file how many units of 1024 bytes it had at most
LAUNCHER = r'''
#include <spawn.h>
#include <stdio.h>
#include <sys/resource.h>
#include <sys/wait.h>
extern char **environ;
int main(int many, char **words) {
  pid_t child;
  struct rusage used;
  int status;
  if (many < 3 || posix_spawn(&child, words[2], 0, 0, words + 2, environ)) return 127;
  if (wait4(child, &status, 0, &used) != child) return 127;
  FILE *out = fopen(words[1], "w");
  if (!out) return 127;
  fprintf(out, "%ld", used.ru_maxrss);
  return fclose(out) || !WIFEXITED(status) ? 126 : WEXITSTATUS(status);
}
'''
# what is tried at the largest size too
LARGE_ONES = {
    '{ a', '{ ""', '{ {a}', '{ {k{x}}', '{ :string{""}', '{ :bin{00}', '{ :intvector{1}',
    ':array{ {}', ':table{ k{a}', ':table{ k:bin{00}', 'nested {', 'nested :table{k', 'a string',
    'a quoted string', 'a typed string', 'a path', 'a vector', 'a vector of warned numbers',
    'a binary', 'a key', 'comments', '{ "a" "b"', '{ "" ""', '{ "\\u0061"', '{ "\\""',
    '{ {"a" "b"}', '{ :string{"a" "b"}', '{ :alias{"\\""}', 'a string of pieces',
    'a string of long pieces', 'a string of escapes', 'a string of quotes', 'a binary of pieces',
    'a binary of long pieces',
}

# members that need a comma between them, and those that may be the value of a key: what they make
STRINGS = {'a': A_STRING, '""': STRING, '"ab"': A_STRING + BYTE, '"\\"': A_STRING}
GROUPS = {
    '{a}': GROUP + A_STRING,
    '{a,}': GROUP + A_STRING,
    '{}': GROUP,
    '{{}}': 2 * GROUP,
    '{k{x}}': 2 * GROUP + 2 * A_STRING + TABLE,
    ':string{"a"}': GROUP + BYTE,
    ':string{""}': GROUP,
    ':int{1}': GROUP,
    ':bin{""}': GROUP + REQUEST,
    ':bin{00}': GROUP + REQUEST + 1,
    ':intvector{}': GROUP + REQUEST,
    ':intvector{1}': GROUP + REQUEST + NUMBER,
    ':intvector{1,2}': GROUP + REQUEST + 2 * NUMBER,
    ':array{}': GROUP,
    ':array{a}': GROUP + A_STRING,
    ':array{:int{1}}': 2 * GROUP,
    ':table{}': GROUP,
    ':table{k{x}}': 2 * GROUP + 2 * A_STRING + TABLE,
}
# what opens a group, what it makes, what stands in the innermost, and what that makes
NESTS = {
    '{': (GROUP, '', 0),
    ':array{': (GROUP, '', 0),
    '{x,': (GROUP + A_STRING, '', 0),
    ':array{x,': (GROUP + A_STRING, '', 0),
    '{k': (GROUP + A_STRING + TABLE, '{x}', GROUP + A_STRING),
    ':table{k': (GROUP + A_STRING + TABLE, '{x}', GROUP + A_STRING),
}
# what stands before, what is repeated, and behind, and what one of it makes and all else
LONG = {
    'a string': ('b{v{', 'a', '}}', BYTE, ROOT + GROUP + STRING),
    'a quoted string': ('b{v{"', 'a', '"}}', BYTE, ROOT + GROUP + STRING),
    'a typed string': ('b{v:string{"', 'a', '"}}', BYTE, ROOT + GROUP),
    'a vector': ('b{v:intvector{', '1,', '}}', NUMBER, ROOT + GROUP + REQUEST),
    'a vector of long numbers':
        ('b{v:intvector{', '4000000000,', '}}', NUMBER, ROOT + GROUP + REQUEST),
    'a vector of warned numbers':
        ('b{v:intvector{', '01,', '}}', NUMBER, ROOT + GROUP + REQUEST),
    'a binary': ('b{v:bin{"', '00', '"}}', 1, ROOT + GROUP + REQUEST),
    'a name': ('b', 'b', '{}', 0, GROUP),
    'a key': ('b{k', 'k', '{x}}', BYTE, ROOT + GROUP + A_STRING),
    'blanks': ('b{', ' ', '}', 0, GROUP),
    'a comment': ('b{/*', '*', '*/}', 0, GROUP),
    'comments': ('b{', '/**/', '}', 0, GROUP),
}


def shapes(size):
    """Each shape's name, its text of about this size, and what its reading makes."""
    for opening in ('{', ':array{'):
        for one, made in (STRINGS | GROUPS).items():
            many = max(2, size // (len(one) + 1))
            yield f'{opening} {one}', f'b{{v{opening}{(one + ",") * many}}}}}', \
                ROOT + GROUP + made * many
    for one, made in GROUPS.items():
        many = max(2, size // (len(one) + 1))
        yield f':table{{ k{one}', f'b{{v:table{{{("k" + one) * many}}}}}', \
            ROOT + GROUP + TABLE + (A_STRING + made) * many
    for front, (made, inner, innermost) in NESTS.items():
        many = max(2, size // (len(front) + 1))
        yield f'nested {front}', f"b{{v{front * many}{inner}{'}' * many}}}", \
            ROOT + innermost + made * many
    for name, (front, one, behind, each, once) in LONG.items():
        many = max(2, size // len(one))
        yield name, front + one * many + behind, once + each * many


# ICU's form: a key is told from a member, a table from its first key, and a string from a group
KEY = STRING
ICU_ROOT = GROUP + TABLE + KEY + BYTE
ICU_STRINGS = {'a': GROUP + BYTE, '""': GROUP, '"ab"': GROUP + 2 * BYTE}
# a string that takes more of the text than its bytes and two quotes is put together: it makes 32
# more, and 1 more for each byte
JOINED = BYTE + 1
# a byte of a binary, and its two digits
BINARY_BYTE = 3
ICU_PIECES = {
    '"a" "b"': GROUP + 2 * JOINED + REQUEST,
    '"" ""': GROUP + REQUEST,
    '"\\u0061"': GROUP + JOINED + REQUEST,
    '"\\""': GROUP + JOINED + REQUEST,
}
ICU_GROUPS = {
    '{a}': GROUP + BYTE,
    '{a,}': 2 * GROUP + BYTE,
    '{"a" "b"}': GROUP + REQUEST + 2 * JOINED,
    '{"\\""}': GROUP + REQUEST + JOINED,
    '{}': GROUP,
    '{{}}': 2 * GROUP,
    '{k{x}}': 2 * GROUP + TABLE + KEY + 2 * BYTE,
    ':string{"a"}': GROUP + REQUEST + JOINED,
    ':string{""}': GROUP + REQUEST,
    ':string{"a" "b"}': GROUP + REQUEST + 2 * JOINED,
    ':alias{"a"}': GROUP + REQUEST + JOINED,
    ':alias{"\\""}': GROUP + REQUEST + JOINED,
    ':int{1}': GROUP,
    ':bin{""}': GROUP + REQUEST,
    ':bin{00}': GROUP + REQUEST + BINARY_BYTE,
    ':intvector{}': GROUP + REQUEST,
    ':intvector{1}': GROUP + REQUEST + NUMBER,
    ':intvector{1,2}': GROUP + REQUEST + 2 * NUMBER,
    ':array{}': GROUP,
    ':array{a}': 2 * GROUP + BYTE,
    ':array{:int{1}}': 2 * GROUP,
    ':table{}': GROUP,
    ':table{k{x}}': 2 * GROUP + TABLE + KEY + 2 * BYTE,
}
ICU_NESTS = {
    '{': (GROUP, '{}', GROUP),
    ':array{': (GROUP, '', 0),
    '{x,': (2 * GROUP + BYTE, '', 0),
    ':array{x,': (2 * GROUP + BYTE, '', 0),
    '{k': (GROUP + TABLE + KEY + BYTE, '{x}', GROUP + BYTE),
    ':table{k': (GROUP + TABLE + KEY + BYTE, '{x}', GROUP + BYTE),
}
ICU_LONG = {
    'a string': ('b{v{', 'a', '}}', BYTE, ICU_ROOT + GROUP),
    'a quoted string': ('b{v{"', 'a', '"}}', BYTE, ICU_ROOT + GROUP),
    'a string of pieces': ('b{v{', '"a" ', '}}', JOINED, ICU_ROOT + GROUP + REQUEST),
    'a string of long pieces':
        ('b{v{"a" "', 'a', '"}}', JOINED, ICU_ROOT + GROUP + REQUEST + JOINED),
    'a string of a row': ('b{v{x', ' x', '}}', 2 * JOINED, ICU_ROOT + GROUP + REQUEST + JOINED),
    'a row of blanks': ('b{v{x', ' ', 'x}}', 0, ICU_ROOT + GROUP + REQUEST + 3 * JOINED),
    'a string of escapes': ('b{v{"', '\\u0061', '"}}', JOINED, ICU_ROOT + GROUP + REQUEST),
    'a string of quotes': ('b{v{"', '\\"', '"}}', JOINED, ICU_ROOT + GROUP + REQUEST),
    'a typed string': ('b{v:string{"', 'a', '"}}', JOINED, ICU_ROOT + GROUP + REQUEST),
    'a path': ('b{v:alias{"', 'a', '"}}', JOINED, ICU_ROOT + GROUP + REQUEST),
    'a vector': ('b{v:intvector{', '1,', '}}', NUMBER, ICU_ROOT + GROUP + REQUEST),
    'a vector of long numbers':
        ('b{v:intvector{', '4000000000,', '}}', NUMBER, ICU_ROOT + GROUP + REQUEST),
    'a binary': ('b{v:bin{"', '00', '"}}', BINARY_BYTE, ICU_ROOT + GROUP + REQUEST),
    'a binary of pieces': ('b{v:bin{', '"00" ', '}}', BINARY_BYTE, ICU_ROOT + GROUP + REQUEST),
    'a binary of long pieces':
        ('b{v:bin{"00" "', '00', '"}}', BINARY_BYTE, ICU_ROOT + GROUP + REQUEST + BINARY_BYTE),
    'a binary of a row': ('b{v:bin{', '00 ', '}}', BINARY_BYTE, ICU_ROOT + GROUP + REQUEST),
    'a binary of escapes':
        ('b{v:bin{"', '\\u0030\\u0030', '"}}', BINARY_BYTE, ICU_ROOT + GROUP + REQUEST),
    'a name': ('b', 'b', '{}', 0, GROUP),
    'a key': ('b{k', 'k', '{x}}', BYTE, ICU_ROOT + GROUP + BYTE),
    'blanks': ('b{', ' ', '}', 0, GROUP),
    'a comment': ('b{/*', '*', '*/}', 0, GROUP),
    'comments': ('b{', '/* */', '}', 0, GROUP),
}


def keyed(one, size):
    """Entries that differ in their keys, with one value, of about this size; and the bytes of the
    keys."""
    many = max(2, size // (len(one) + 7))
    keys = [f'k{number:06}' for number in range(many)]
    return ''.join(key + one for key in keys), many, sum(map(len, keys))


def icu_shapes(size):
    """Texts of that kind in ICU's form."""
    for opening in ('{', ':array{'):
        for one, made in (ICU_STRINGS | ICU_PIECES | ICU_GROUPS).items():
            many = max(2, size // (len(one) + 1))
            yield f'{opening} {one}', f'b{{v{opening}{(one + ",") * many}}}}}', \
                ICU_ROOT + GROUP + made * many
    for one, made in ICU_GROUPS.items():
        entries, many, bytes_of_keys = keyed(one, size)
        yield f':table{{ k{one}', f'b{{v:table{{{entries}}}}}', \
            ICU_ROOT + GROUP + TABLE + (KEY + made) * many + BYTE * bytes_of_keys
    for front, (made, inner, innermost) in ICU_NESTS.items():
        many = max(2, size // (len(front) + 1))
        yield f'nested {front}', f"b{{v{front * many}{inner}{'}' * many}}}", \
            ICU_ROOT + innermost + made * many
    for name, (front, one, behind, each, once) in ICU_LONG.items():
        many = max(2, size // len(one))
        yield name, front + one * many + behind, once + each * many


def refusal(path, text, limit):
    """The line that is said of a text whose reading makes more than the limit."""
    if len(text) > max(limit, LEAST_READ):
        return f'{path}: this has more than the limit of {max(limit, LEAST_READ)} bytes\n'
    return f'{path}: reading this text takes more than the limit of {limit} bytes\n'


def ran(folder, words):
    """The status, standard output and error of a run, and the most memory it had, in bytes."""
    peak = f'{folder}/peak'
    found = subprocess.run([f'{folder}/launcher', peak, RESB, *words], check=False,
                           capture_output=True)
    with open(peak, encoding='ascii') as most:
        return found.returncode, found.stdout, found.stderr.decode(), int(most.read()) * 1024


def own_memory(folder):
    """The memory of the program for a text of 7 bytes."""
    path = f'{folder}/hostile.txt'
    with open(path, 'w', encoding='utf-8') as out:
        out.write('b{a{x}}')
    return max(ran(folder, ['compile', path, '-o', '/dev/null'])[3] for _ in range(5))


def least(folder, words, most, bound):
    """The least memory of a run, which is tried again while it has more than is allowed."""
    for _ in range(4):
        if most <= bound:
            break
        most = min(most, ran(folder, words)[3])
    return most


def runs(folder, name, text, made, form):
    """A text within its own limit, within one byte less, and within a tenth."""
    path = f'{folder}/hostile.txt'
    with open(path, 'w', encoding='utf-8') as out:
        out.write(text)
    for limit in (made, made - 1, made // 10):
        words = ['compile', *form, '--limit', str(limit), path, '-o', '/dev/null']
        status, out, said, most = ran(folder, words)
        wanted = (0, b'', '')
        if limit < made or len(text) > max(limit, LEAST_READ):
            wanted = (1, b'', refusal(path, text, limit))
        # warnings of a text that compiles are lines too
        same = (status, out) == wanted[:2] and (said == wanted[2] or status == 0)
        seen(same, f'{name}, {len(text)}, {limit}: {status}, {said[:200]}')
        bound = 1.5 * (limit + len(text)) + KEPT + own[0]
        if len(text) <= UP_TO:
            bound = min(bound, limit + len(text) + MOST_BESIDE)
        most = least(folder, words, most, bound)
        seen(most <= bound, f'{name}, {len(text)}, {limit}: {most} bytes of memory')


def of_size(folder, size, chosen):
    """Each shape that is chosen, at this size, in both forms."""
    for all_of, form in ((shapes, []), (icu_shapes, ['--icu'])):
        for name, text, made in all_of(size):
            if chosen(name):
                runs(folder, ' '.join([*form, name]), text, made, form)


def unmade(folder):
    """A binary of as many digits as are read whatever the limit, in both forms: within a small one
    it is refused before it is made, so with the memory that a comment of its length takes."""
    limit, path = 10_000, f'{folder}/hostile.txt'
    for form in ([], ['--icu']):
        most = {}
        for front, one, behind in (('b{v{/*', '*', '*/x}}'), ('b{v:bin{"', '0', '"}}')):
            wanted = int(one == '0')
            text = front + one * (LEAST_READ - len(front + behind)) + behind
            with open(path, 'w', encoding='utf-8') as out:
                out.write(text)
            words = ['compile', *form, '--limit', str(limit), path, '-o', '/dev/null']
            status, out, said, bytes_of_run = ran(folder, words)
            # a run's memory is that of its pages, which differs by some from run to run
            most[one] = min([bytes_of_run, *(ran(folder, words)[3] for _ in range(8))])
            holds = (status, out) == (wanted, b'')
            holds = holds and (not wanted or said == refusal(path, text, limit))
            seen(holds, f'{form} {front}, {len(text)}: {status}, {said[:200]}')
        seen(most['0'] <= most['*'] + APART, f'{form} an unmade binary: {most} bytes of memory')


def main():
    """Each shape at each size, and some of them at the largest."""
    if not os.access(RESB, os.X_OK) or not shutil.which('cc'):
        print(f"{RESB} isn't built, or cc isn't there")
        print('0 passed, 1 failed')
        return 1
    with tempfile.TemporaryDirectory() as folder:
        subprocess.run(['cc', '-O1', '-x', 'c', '-', '-o', f'{folder}/launcher'], check=True,
                       input=LAUNCHER.encode())
        own.append(own_memory(folder))
        for size in [int(it) for it in sys.argv[1:]] or SIZES:
            of_size(folder, size, lambda _: True)
        unmade(folder)
        if not sys.argv[1:]:
            of_size(folder, LARGE, lambda name: name in LARGE_ONES)
    print(f'{counts[True]} passed, {counts[False]} failed')
    return 1 if counts[False] else 0


if __name__ == '__main__':
    if sys.argv[1:] == ['--help']:
        sys.exit(print(__doc__))
    sys.exit(main())
