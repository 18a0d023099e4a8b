#!/usr/bin/env bash
# What the program `resb` does with files: links, devices, pipes, modes, what stands in the way,
# names of all kinds, want of memory, inputs that are too large; and what messages show of strange
# names and texts. What needs the rights of root, or a program that isn't there, counts as passed
# without them. The last line counts, as 'N passed, M failed'.
set -uo pipefail
top=$(cd "$(dirname "$(readlink -f "$0")")/.." && pwd)
program=$top/crates/resb_cli/out/resb_cli
work=$(mktemp -d)
trap 'chmod -R u+rwx "$work"; rm -rf "$work"' EXIT
cd "$work" || exit 3
export LC_ALL=C
umask 022
passed=0
failed=0

# resb WORD..: the program, under its name
resb() { (exec -a resb "$program" "$@"); }

# ends STATUS ERROR WORD..: runs the program, which says this on standard error and nothing else
ends() {
  local status=$1 error=$2 got
  shift 2
  resb "$@" > "$work/.out" 2> "$work/.err" < "${input:-/dev/null}"
  got=$?
  if [ "$got" = "$status" ] && [ "$(cat "$work/.err")" = "$error" ] && [ ! -s "$work/.out" ]; then
    passed=$((passed + 1))
  else
    failed=$((failed + 1))
    printf 'failed: resb %.200q: status %s\n' "$*" "$got"
    diff <(printf '%s\n' "$error") "$work/.err" | cut -c1-300
  fi
}

# holds NAME COMMAND..: whether the command succeeds
holds() {
  local name=$1
  shift
  if "$@"; then
    passed=$((passed + 1))
  else
    failed=$((failed + 1))
    echo "failed: $name"
  fi
}

# is WORD WORD: whether two words are one
is() { [ "$1" = "$2" ] || { printf '%s\n' "$1" | head -c 300; false; }; }

# fresh: a folder of its own for what comes next, with a text; `want` is its file
fresh() {
  number=$((number + 1))
  mkdir "$work/$number"
  cd "$work/$number" || exit 3
  printf 't{a{"x"} c:intvector{1,2}}' > t.txt
}
number=0

[ -x "$program" ] || { echo "$program isn't built"; echo '0 passed, 1 failed'; exit 1; }
printf 't{a{"x"} c:intvector{1,2}}' > t.txt
ends 0 '' compile t.txt -o want
want=$work/want

# a device is written where it is, and stays
fresh
if mknod null c 1 3 2> .err && mknod full c 1 7 2> .err && : 2> .err > null; then
  ends 0 '' compile t.txt -o null
  holds 'the device stays' [ -c null ]
  ends 2 'full: no room is left for this' compile t.txt -o full
  holds 'the full device stays' [ -c full ]
  ln -s null t.res
  ends 0 '' compile t.txt
  holds 'the link to a device stays' [ -L t.res ]
  holds 'a device behind a link stays' [ -c null ]
else
  passed=$((passed + 6))
fi
[ -w /dev ] || ends 2 '/dev/full: no room is left for this' compile t.txt -o /dev/full

# the reader of a pipe gets the bytes
fresh
mkfifo pipe
cat pipe > got &
ends 0 '' compile t.txt -o pipe
wait
holds 'a pipe' cmp -s got "$want"
holds 'the pipe stays' [ -p pipe ]

# standard output by its other names, and what else is open: nothing that stands there is lost
for name in - /dev/stdout /dev/fd/1 /proc/self/fd/1; do
  { echo before; resb compile t.txt -o "$name"; echo behind; } > got
  holds "a file behind $name" cmp -s got <(echo before; cat "$want"; echo behind)
  resb compile t.txt -o "$name" | cat > got
  holds "a pipe behind $name" cmp -s got "$want"
done
{ printf before >&3; resb compile t.txt -o /dev/fd/3; } 3> got
holds 'a file that is open' cmp -s got <(printf before; cat "$want")

ends 2 't.txt: writing /dev/fd/3 would replace t.txt, which this call reads' \
  compile t.txt -o /dev/fd/3 3>> t.txt
holds 'the text is kept' is "$(cat t.txt)" 't{a{"x"} c:intvector{1,2}}'

# links stay, and what they lead to is written
fresh
mkdir real
ln -s real/out.res relative
ln -s "$PWD/real/out.res" absolute
ln -s relative several
for link in relative absolute several; do
  printf old > real/out.res
  ends 0 '' compile t.txt -o "$link"
  holds "the link $link stays" [ -L "$link" ]
  holds "what $link leads to" cmp -s real/out.res "$want"
done
ln -s real/new.res dangling
ends 0 '' compile t.txt -o dangling
holds 'a dangling link stays' [ -L dangling ]
holds 'what a dangling link leads to' cmp -s real/new.res "$want"
ln -s real/other.res t.res
ends 0 '' compile t.txt
holds 'a link in the place of the file' cmp -s real/other.res "$want"
holds 'nothing else was made' is "$(ls -A real | tr '\n' ' ')" 'new.res other.res out.res '
ln -s loop loop
ends 2 'loop: too many links' compile t.txt -o loop
ln -s none/out.res nowhere
ends 2 'nowhere: no such folder' compile t.txt -o nowhere
ln -s t.txt own
ends 2 't.txt: writing ./t.txt would replace t.txt, which this call reads' compile t.txt -o own
holds 'the text is kept' grep -q intvector t.txt

# a link of others in a folder of all, which the system may forbid to follow
fresh
mkdir all
chmod 755 "$work" .
chmod 1777 all
printf kept > victim
if [ "$(cat /proc/sys/fs/protected_symlinks)" = 1 ] && [ "$(id -u)" = 0 ] \
  && setpriv --reuid=65534 --regid=65534 --clear-groups ln -s ../victim all/link 2> .err; then
  ends 2 'all/link: permission denied' compile t.txt -o all/link
  holds 'what it leads to is kept' is "$(cat victim)" kept
else
  passed=$((passed + 2))
fi

# the mode of the old file is kept, and its owner; a new one has the usual mode
fresh
printf old > out.res
chmod 600 out.res
ends 0 '' compile t.txt -o out.res
holds 'the mode is kept' is "$(stat -c %a out.res)" 600
chmod 4444 out.res
ends 0 '' compile t.txt -o out.res
holds 'that of a file that may be read only, as another user' is "$(stat -c %a out.res)" 444
(umask 027; resb compile t.txt)
holds 'a new mode' is "$(stat -c %a t.res)" 640
if [ "$(id -u)" = 0 ] && chown 1234:4321 out.res 2> .err; then
  ends 0 '' compile t.txt -o out.res
  holds 'the owner is kept' is "$(stat -c %u:%g out.res)" 1234:4321
else
  passed=$((passed + 2))
fi

# names that others made are not followed, nor taken away
fresh
printf kept > victim
(
  id=$BASHPID
  ln -s victim ".resb-$id-0.part"
  printf other > ".resb-$id-1.part"
  echo "$id" > id
  exec -a resb "$program" compile t.txt -o out.res
)
holds 'names that are taken' cmp -s out.res "$want"
holds 'what a planted link leads to' is "$(cat victim)" kept
holds 'a planted link' [ -L ".resb-$(cat id)-0.part" ]
holds 'a planted file' is "$(cat ".resb-$(cat id)-1.part")" other
holds 'no other name' is "$(ls -A | grep -c part)" 2
printf old > out.res
(
  for ((n = 0; n < 100; n++)); do : > ".resb-$BASHPID-$n.part"; done
  exec -a resb "$program" compile t.txt -o out.res
) 2> .err
holds 'all names taken' is "$? $(cat .err)" \
  '2 out.res: cannot be written, since the names beside it are taken'
holds 'the old file is kept' is "$(cat out.res)" old

# a write that fails leaves the old file, and nothing beside it
fresh
printf old > out.res
(trap '' XFSZ; ulimit -f 0; exec -a resb "$program" compile t.txt -o out.res) 2> .err
holds 'a limit on files' [ "$?" = 2 ]
holds 'what it leaves' is "$(cat out.res) $(ls -A | tr '\n' ' ')" 'old .err out.res t.txt '

# names as long as the system takes
fresh
for ((length = 244; length <= 255; length++)); do
  stem=$(printf '%*s' $((length - 4)) '' | tr ' ' n)
  cp t.txt "$stem.txt"
  ends 0 '' compile --quiet "$stem.txt"
  holds "a name of $length bytes" cmp -s "$stem.res" "$want"
done
ends 2 "n$stem.res: file name too long" compile t.txt -o "n$stem.res"

# folders that are not to be read, or not there
fresh
mkdir closed folder
chmod 755 "$work" "$work/$number"
cp "$program" "$work/copy"
chmod 711 closed
cp t.txt closed/t.txt
if [ "$(id -u)" != 0 ]; then
  as() { "$@"; }
elif command -v setpriv > .err; then
  as() { setpriv --reuid=65534 --regid=65534 --clear-groups "$@"; }
fi
if declare -F as > .err && as "$work/copy" --version > .out 2> .err; then
  chmod 555 closed
  as "$work/copy" compile closed/t.txt > .out 2> .err
  holds 'a folder that is not written' is "$? $(cat .err)" '2 closed/t.res: permission denied'
  chmod 600 closed
  as "$work/copy" compile closed/t.txt > .out 2> .err
  holds 'a folder that is not entered' is "$? $(cat .err)" '2 closed/t.res: permission denied'
  chmod 700 closed
else
  passed=$((passed + 2))
fi
ends 2 'folder: this is a folder' compile t.txt -o folder
ends 2 'folder: this is a folder' compile folder -o out.res
ends 2 'none: no such folder' compile t.txt -d none
ends 2 'resb: --directory is the name of a folder' compile t.txt -d ''
ends 2 ': this is no name of a file' compile t.txt -o ''

# strange names
fresh
cp t.txt ..txt
ends 0 '' compile --quiet ..txt
holds 'the file of ..txt' cmp -s ..res "$want"
mkdir into
ends 0 '' compile --quiet ..txt -d into
holds 'that in a folder' cmp -s into/..res "$want"
printf kept > -
resb compile - < t.txt > got
holds 'a file with the name of a stream' cmp -s got "$want"
holds 'is not touched' is "$(cat ./-)" kept
bad=$'bad\xff\xc3\xa9'
cp t.txt "$bad.txt"
ends 2 'bad\xff\xc3\xa9.txt: this name is no UTF-8' compile "$bad.txt" t.txt
holds 'the other text has its file' cmp -s t.res "$want"
ends 2 'bad\xff\xc3\xa9.txt: this name is no UTF-8' compile "$bad.txt" -o out.res
ends 2 'bad\xff\xc3\xa9: this name is no UTF-8' compile t.txt -o "$bad"
ends 2 'bad\xff\xc3\xa9: this name is no UTF-8' compile t.txt -d "$bad"
ends 2 'bad\xff\xc3\xa9: this name is no UTF-8' dump "$bad"
ends 2 'bad\xff\xc3\xa9: this path is no UTF-8' get t.res "$bad"
ends 2 'resb: --limit is a number of bytes' dump t.res --limit "$bad"
holds 'no other file was made' is "$(ls -A | grep -c bad)" 1
# in a folder it is named, and the others are done
mkdir many
cp t.txt many/a.txt
cp t.txt "many/$bad.txt"
cp t.txt many/z.txt
ends 2 'many/bad\xff\xc3\xa9.txt: this name is no UTF-8' compile --quiet many
holds 'the others have their files' is "$(cmp many/a.res "$want" && cmp many/z.res "$want")" ''
cp t.res "many/$bad.res"
resb check many > got 2> .err
holds 'it is named' is "$? $(cat .err)" '2 many/bad\xff\xc3\xa9.res: this name is no UTF-8'
holds 'the others are checked' is "$(wc -l < got)" 2
resb check --json many > got 2> .err
named='{"path":"many/bad\\xff\\xc3\\xa9.res","ok":false,"kind":"input",'
holds 'it is named in JSON' is "$(head -n 1 got)" "$named"'"message":"this name is no UTF-8"}'
holds 'and nothing else is said' is "$(wc -l < got) $(cat .err)" '3 '
# a folder inside isn't looked at, whatever its name; with the ending its name is said
mkdir inside "inside/$bad"
cp t.txt inside/a.txt
cp t.txt "inside/$bad/a.txt"
ends 0 '' compile --quiet inside
holds 'the text beside a folder' cmp -s inside/a.res "$want"
resb check inside > got 2> .err
holds 'the file beside a folder' is "$? $(wc -l < got) $(cat .err)" '0 1 '
rm inside/a.res
mkdir "inside/$bad.txt" "inside/$bad.res"
ends 2 'inside/bad\xff\xc3\xa9.txt: this name is no UTF-8' compile --quiet inside
holds 'the text beside a folder with the ending' cmp -s inside/a.res "$want"
resb check inside > got 2> .err
holds 'the file beside a folder with the ending' is "$? $(wc -l < got) $(cat .err)" \
  '2 1 inside/bad\xff\xc3\xa9.res: this name is no UTF-8'
holds 'nothing is written in a folder inside' is "$(ls "inside/$bad")" a.txt
# what is no file isn't waited for
mkdir pipes
cp t.txt pipes/z.txt
mkfifo pipes/m.txt pipes/m.res
ends 2 'pipes/m.txt: this is a device or a pipe' compile --quiet pipes
holds 'the text beside a pipe' cmp -s pipes/z.res "$want"
resb check pipes > got 2> .err
holds 'the file beside a pipe' is "$? $(wc -l < got) $(cat .err)" \
  '2 1 pipes/m.res: this is a device or a pipe'
# nothing hidden in JSON that says something of files
cp t.res $'a\x7f\xc2\x9b\xe2\x80\xae.res'
resb check --json $'a\x7f\xc2\x9b\xe2\x80\xae.res' > got
holds 'a name in JSON' is "$(cut -d, -f1 got)" '{"path":"a\u007f\u009b\u202e.res"'
printf 'b{k{"\xc2\x9b"}}' > hidden.txt
printf 'b{k{"\x7f"}}' > other.txt
resb compile hidden.txt other.txt
resb diff hidden.res other.res > got
holds 'values in JSON' is "$(cat got)" '~ k "\u009b" -> "\u007f"'

# one file by several names, and texts in the place of others
fresh
mkdir one
ln -s one two
cp t.txt a.txt
cp t.txt a.foo
cp t.txt a.res
ends 2 './a.foo: its file one/a.res is that of a.txt too' compile --quiet a.txt ./a.foo -d one
ends 2 '../'"$number"'/a.foo: its file two/a.res is that of a.txt too' \
  compile --quiet a.txt "../$number/a.foo" -d two
ends 2 $'a.txt: writing a.res would replace a.res, which this call reads
a.res: writing a.res would replace a.res, which this call reads' compile --quiet a.txt a.res
holds 'the other text is kept' cmp -s a.res t.txt

# help and the version where standard output fails
fresh
closed='resb: standard output cannot be written'
for words in help --help --version 'help dump' 'get --help'; do
  # shellcheck disable=SC2086
  resb $words > /dev/full 2> .err
  holds "$words on a full disk" is "$? $(cat .err)" "2 $closed"
  # shellcheck disable=SC2086
  resb $words 2> .err >&-
  holds "$words without an output" is "$? $(cat .err)" "2 $closed"
  # shellcheck disable=SC2086
  resb $words >&- 2>&-
  holds "$words without any stream" [ $? = 2 ]
done

# numbers in paths are written one way
fresh
resb compile t.txt
ends 1 't.res: nothing stands at c/+1' get t.res c/+1
ends 1 't.res: nothing stands at c/01' get t.res c/01
ends 1 't.res: nothing stands at c/-0' get t.res c/-0
ends 1 't.res: nothing stands at c/' get t.res c/
holds 'a number' is "$(resb get t.res c/0)" 1

# what messages show of names, words, keys and texts
fresh
esc=$'\e[31m'
ends 2 'a\u{1b}[31m\u{a}b\u{7f}\u{9b}\u{202e}\u{200f}\u{61c}\u{2066}.txt: no such file' \
  compile "a$esc"$'\nb\x7f\xc2\x9b\xe2\x80\xae\xe2\x80\x8f\xd8\x9c\xe2\x81\xa6.txt'
resb compile t.txt
ends 1 't.res: nothing stands at a\u{1b}[31m' get t.res "a$esc"
resb "$esc" 2> .err
holds 'no escape of a command' is "$? $(grep -cF "$esc" .err)" '2 0'
printf 'b{"\xe2\x80\xaea\xc2\x9b\x1b\t\x7f\xd8\x9c":int{x\xe2\x81\xa9\xc3\xa9}}' > e.txt
ends 1 $'e.txt:1:17: expected a number\nb{"?a?   ?":int{x?\xc3\xa9}}\n                ^' \
  compile e.txt
printf 'b{a{"\xc3\xa9\xff\xe2\x80"}}' > e.txt
ends 1 $'e.txt:1:7: this is no UTF-8\nb{a{"???"}}\n      ^' compile e.txt
long=$(printf '%*s' 100000 '' | tr ' ' n)
half=$(printf '%*s' 500 '' | tr ' ' n)
ends 1 "t.res: nothing stands at $half..$half" get t.res "$long"
python3 - << 'P'
levels = 2000
text = "b{" + '"k\u202e"{' * levels + 'a{"other"}' + "}" * levels + "}"
open("k.txt", "w", encoding="utf8").write(text)
P
resb compile k.txt
python3 - << 'P'
data = open("k.res", "rb").read()
old, new = "other".encode("utf-16-le"), 'oth"r'.encode("utf-16-le")
open("k.res", "wb").write(data.replace(old, new))
P
resb dump k.res > .out 2> .err
holds 'a long path to a key' \
  grep -q "since a string holds a '\"' at k.u{202e}/k.*\.\..*/a; here is its JSON$" .err
holds 'is cut' [ "$(wc -c < .err)" -lt 8000 ]

# an input is read up to a limit
fresh
resb compile t.txt
input=/dev/zero
ends 1 '-: this has more than the limit of 1048576 bytes' dump - --limit 10
ends 1 '-: this has more than the limit of 2000000 bytes' get - a --limit 2000000
ends 1 '/dev/zero: this has more than the limit of 1048576 bytes' compile --limit 10 \
  /dev/zero -o out.res
input=
{ cat t.txt; head -c $((1048576 - $(wc -c < t.txt))) /dev/zero | tr '\0' ' '; } > full.txt
ends 1 'full.txt: reading this text takes more than the limit of 10 bytes' \
  compile full.txt --limit 10
printf ' ' >> full.txt
ends 1 'full.txt: this has more than the limit of 1048576 bytes' compile full.txt --limit 10
if truncate -s $((1073741824 + 1)) large.res 2> .err; then
  ends 1 'large.res: this has more than the limit of 1073741824 bytes' check large.res
else
  passed=$((passed + 1))
fi

# each request for memory refused: a word on standard error, and the old file or the whole new one
fresh
. "$top/tests/refusing.sh"

# kept: whether there is the old file or the whole new one, and nothing beside
kept() {
  { cmp -s out.res old || cmp -s out.res whole; } && [ -z "$(ls -A | grep part)" ]
}

# refused NUMBER WORD..: the session of these words, without that request; the status is in `got`
refused() {
  cp old out.res
  : > mark
  REFUSED_REQUEST=$1 LD_PRELOAD=$work/refuse.so resb "${@:2}" > .out 2> .err 9> mark
  got=$?
}

# refuses WORD..: each request of these words refused in turn
refuses() {
  local status
  refused 0 "$@"
  status=$got
  mv .out out
  mv .err err
  for ((n = 1; n <= 400; n++)); do
    refused "$n" "$@"
    holds "files at request $n of $*" kept
    if [ "$got" = "$status" ] && cmp -s .out out && cmp -s .err err; then
      passed=$((passed + 1))
    else
      holds "status at request $n of $*" [ -s mark -a "$got" -gt 0 -a "$got" -lt 3 ]
      holds "word at request $n of $*" grep -q '[Oo]ut of memory' .err
    fi
    [ -s mark ] || break
  done
}

# reads WORD..: the same of a run that makes no file. Each line is one of the run with ample memory,
# but for one that says want of memory; where that is said nothing is printed, but by `check` what
# it says of other files.
reads() {
  local name=$* status line number
  local -A known=()
  "$program" "$@" > out 2> err
  status=$?
  while IFS= read -r line; do known[=$line]=1; done < <(cat out err)
  for ((number = 1; number <= 400; number++)); do
    : > mark
    REFUSED_REQUEST=$number LD_PRELOAD=$work/refuse.so "$program" "$@" > .out 2> .err 9> mark
    got=$?
    lines_of "$1"
    if [ "$wanted" = 0 ]; then
      holds "request $number of $name" is "$got $(cat .out .err)" "$status $(cat out err)"
    else
      holds "request $number of $name" \
        [ -s mark -a "$wanted $others" = '1 0' -a "$got" -gt 0 -a "$got" -lt 3 ]
    fi
    [ -s mark ] || break
  done
}

# lines_of COMMAND: how many lines say want of memory, and how many others the run may not have
lines_of() {
  wanted=0 others=0
  while IFS= read -r line || [ "$line" ]; do
    case $line in
      *': out of memory') wanted=$((wanted + 1)) ;;
      *) [ "${known[=$line]-}" ] || others=$((others + 1)) ;;
    esac
  done < .err
  while IFS= read -r line || [ "$line" ]; do
    case $1$line in
      'check{'*'"kind":"out of memory","message":"out of memory"}') wanted=$((wanted + 1)) ;;
      check*) [ "${known[=$line]-}" ] || others=$((others + 1)) ;;
      *) others=$((others + 1)) ;;
    esac
  done < .out
}

# one_file: the file of two texts is the first one's, or there is none; it is the second one's where
# it is said that the first has none. There is always a status, and a word of a text without a file:
# it names the text, or the file where its place isn't known.
one_file() {
  [ "$got" -gt 0 ] && [ "$got" -lt 3 ] || return 1
  if cmp -s into/t.res second/want; then
    grep -q '^\(first/t.txt\|into/t.res\): .*[Oo]ut of memory' .err
  elif cmp -s into/t.res first/want; then
    grep -q '^\(second/t.txt\|into/t.res\): ' .err
  else
    [ ! -e into/t.res ] && grep -q '[Oo]ut of memory' .err
  fi
}

# in_turn: two texts of one file in one call, each request refused in turn
in_turn() {
  mkdir first second into
  printf 'b{a{"1"}}' > first/t.txt
  printf 'b{a{"2"}}' > second/t.txt
  resb compile first/t.txt -o first/want
  resb compile second/t.txt -o second/want
  for ((number = 1; number <= 400; number++)); do
    rm -f into/t.res
    : > mark
    REFUSED_REQUEST=$number LD_PRELOAD=$work/refuse.so resb compile first/t.txt second/t.txt \
      -d into > .out 2> .err 9> mark
    got=$?
    holds "one file of two texts at request $number" one_file
    [ -s mark ] || break
  done
  holds 'all requests of two texts' [ "$number" -lt 400 ]
}

printf 'b{a{"x\\y"} a{"z"} "k\xe2\x80\xae"{"q" "r"}}' > w.txt
printf 'b{a:int{x}}' > refused.txt
printf old > old
resb compile w.txt -o whole 2> .err
printf 'b{a{"x"} c:table{d{"z"} e:int{5}}}' > one.txt
printf 'b{a{"y"} c:table{d{"z"} f:int{5}}}' > two.txt
resb compile one.txt two.txt
mkdir many
cp one.res many
printf no > many/no.res
python3 -B - "$top" << 'P'
import sys
sys.path.insert(0, f"{sys.argv[1]}/tests")
import pools
open("x.dat", "wb").write(pools.package({"x/a.res": pools.file(pools.A3)}))
P
if make_refusing "$work/refuse.so"; then
  refuses compile w.txt -o out.res
  refuses compile refused.txt w.txt -d .
  refuses compile --icu refused.txt
  refuses check whole
  refuses dump whole
  refuses get whole a
  refuses get --check whole a
  refuses help
  refuses unknown
  reads dump one.res
  reads dump --json one.res
  reads dump --icu one.res
  reads dump --limit 100000 one.res
  reads get one.res c
  reads diff one.res two.res
  reads list x.dat
  reads check many
  reads check --json many
  in_turn
else
  passed=$((passed + 18))
fi

echo "files: $passed passed, $failed failed"
[ "$failed" = 0 ]
