#!/usr/bin/env bash
# The built program: what it prints, on which stream, and its status, for texts that it takes and
# refuses.
set -uo pipefail
top=$(cd "$(dirname "$0")/.." && pwd)
work=$(mktemp -d)
trap 'rm -rf "$work"' EXIT
passed=0
failed=0

# answers NAME STATUS STANDARD-OUTPUT STANDARD-ERROR WORD.., with standard input in the file `in`
answers() {
  local name=$1 want=$2 status=0
  printf '%b' "$3" > "$work/want_out"
  printf '%b' "$4" > "$work/want_err"
  shift 4
  "$top/run" "$@" < "$work/in" > "$work/out" 2> "$work/err" || status=$?
  if [ "$status" = "$want" ] && cmp -s "$work/out" "$work/want_out" \
    && cmp -s "$work/err" "$work/want_err"; then
    passed=$((passed + 1))
  else
    failed=$((failed + 1))
    echo "failed: $name (status $status)"
    head -c 400 "$work/out" "$work/err"
  fi
}

# bytes HEX: these bytes
bytes() { printf "$(printf '%s' "$1" | tr -d ' \n' | sed 's/../\\x&/g')"; }

# the 32 bytes that each file begins with
header=2000da2714000000000002005265734202000000010400000000000000000000

printf 'b{a{"x"}c{"yz"}}' > "$work/in"
body=0600005007000000090000000f0000000f00000002000000000000000f000000
body+=6100630000007800000079007a00000002002000220001000300aaaa
answers 'a flat table' 0 "$header$body\n" ''
printf ' b { // no entries\r\n } ' > "$work/in"
answers 'an empty table' 0 \
  "${header}00000020070000000800000009000000090000000000000000000000090000000000aaaa\n" ''
printf '\377' > "$work/in"
answers 'a byte that is no text' 1 '' 'input is not UTF-8\n'
printf '' > "$work/in"
answers 'the empty text' 1 '' \
  'Parse error while reading text bundle:\nat byte 0: expected a string\n'
printf 'b{}/*' > "$work/in"
answers 'an open comment' 1 '' \
  'Parse error while reading text bundle:\nat byte 3: expected the end of the text\n'
printf 'b{"x"}' > "$work/in"
answers 'a key alone' 1 '' "Parse error while reading text bundle:\nat byte 5: expected '{'\n"
printf 'b{d:bin{"00"}e:bin{"00"}}' > "$work/in"
body=110000200700000009000000150000001500000002000000000000000a000000
body+=640065000000aaaaaaaaaaaa0100000000aaaaaaaaaaaaaaaaaaaaaa
body+=0100000000aaaaaa020020002200aaaa0b0000100f000010
answers 'two binaries' 0 "$header$body\n" ''
printf 'b{a:array{"" "x"}}' > "$work/in"
body=0c00002007000000090000000e0000000e00000001000000000000000c000000
body+=6100aaaa0000780000000200000001000100200003000090
answers 'an array of strings' 0 "$header$body\n" ''

# a standard output that takes nothing
status=0
printf 'b{}' | "$top/run" > /dev/full 2> "$work/err" || status=$?
if [ "$status" = 2 ] && [ "$(cat "$work/err")" = 'cannot write standard output' ]; then
  passed=$((passed + 1))
else
  failed=$((failed + 1))
  echo "failed: a full output (status $status)"
fi
# a standard input that can't be read
status=0
"$top/run" < "$work" > "$work/out" 2> "$work/err" || status=$?
if [ "$status" = 2 ] && [ "$(cat "$work/err")" = 'cannot read standard input' ]; then
  passed=$((passed + 1))
else
  failed=$((failed + 1))
  echo "failed: an unreadable input (status $status)"
fi

printf 'b{a{"x"}c{"yz"}}' > "$work/text"
answers 'a text compiled to a file' 0 '' '' compile "$work/text" "$work/file.res"
bytes "$("$top/run" < "$work/text")" > "$work/want.res"
if cmp -s "$work/file.res" "$work/want.res"; then
  passed=$((passed + 1))
else
  failed=$((failed + 1))
  echo 'failed: the file has other bytes than the hex line'
fi
answers 'that file checked' 0 'ok 3 resources\n' '' check "$work/file.res"
head -c 60 "$work/file.res" > "$work/cut.res"
printf 'b{i:int{-1}v:intvector{1,-1,}}' > "$work/numbers"
answers 'numbers compiled to a file' 0 '' '' compile "$work/numbers" "$work/numbers.res"
answers 'their file checked' 0 'ok 3 resources\n' '' check "$work/numbers.res"
# an array whose member is that array
bytes "$header
  09000080 07000000 08000000 0b000000 0b000000 00000000 00000000 09000000
  0000aaaa 01000000 09000080" > "$work/cycle.res"
answers 'a file that goes round' 1 '' 'Invalid resource bundle data: resource budget spent\n' \
  check "$work/cycle.res"
answers 'a file cut short' 1 '' 'Invalid resource bundle data: unexpected end of input\n' \
  check "$work/cut.res"
answers 'a text that is no file' 1 '' \
  'Invalid resource bundle data: input is too short to contain file header\n' \
  check "$work/text"
printf 'b{' > "$work/open"
answers 'a refused text in a file' 1 '' \
  "Parse error while reading text bundle:\nat byte 2: expected '}'\n" \
  compile "$work/open" "$work/none.res"
answers 'no file is made of it' 2 '' "cannot read $work/none.res\n" check "$work/none.res"
answers 'a folder as input' 2 '' "cannot read $work\n" compile "$work" "$work/none.res"
answers 'a folder as output' 2 '' "cannot write $work\n" compile "$work/text" "$work"
answers 'an unknown word' 2 '' 'usage: resb_tool [compile IN OUT | check IN]\n' dump
answers 'a word too many' 2 '' 'usage: resb_tool [compile IN OUT | check IN]\n' check a b
answers 'one name alone' 2 '' 'usage: resb_tool [compile IN OUT | check IN]\n' compile "$work/text"
answers 'a word that is no UTF-8' 2 '' 'usage: resb_tool [compile IN OUT | check IN]\n' \
  check $'\xff'

echo "commands: $passed passed, $failed failed"
[ "$failed" = 0 ]
