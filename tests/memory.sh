#!/usr/bin/env bash
# Refuses the first, the second, .. request for memory of the built program, one in each run, until
# a run asks for no more. Each run has to answer want of memory or what it answers with ample
# memory; it writes to standard output all or nothing, leaves in OUT all or what stood there, and
# never ends by a signal. The same for the program `resb_calls`, which makes each public call that
# asks for memory.
#
# tests/memory.sh [MOST]    at most MOST requests for each command and input; without it all of
#                           them. Those of the public calls are always all refused.
set -uo pipefail
top=$(cd "$(dirname "$0")/.." && pwd)
most=${1:-1000000}
program=$top/crates/resb_tool/out/resb_tool
calls=$top/crates/resb_calls/out/resb_calls
work=$(mktemp -d)
trap 'rm -rf "$work"' EXIT
passed=0
failed=0

. "$top/tests/refusing.sh"
make_refusing "$work/refuse.so" || exit 3
printf 'what stood there' > "$work/before.res"

# answer NUMBER WORD..: runs the program on the file `in`; the request with this number is refused.
# What it wrote is in out, err and out.res, where another file stood, its status in `status`, and
# `refused` says whether a request was refused.
answer() {
  local number=$1
  shift
  cp "$work/before.res" "$work/out.res"
  : > "$work/mark"
  status=0
  REFUSED_REQUEST=$number LD_PRELOAD=$work/refuse.so "$program" "$@" \
    < "$work/in" > "$work/out" 2> "$work/err" 9> "$work/mark" || status=$?
  refused=no
  [ -s "$work/mark" ] && refused=yes
}

# whether what is on standard error says that memory was wanted
says_memory() {
  case $(cat "$work/err") in
    'out of memory' | 'Out of memory: while writing' | 'Out of memory: while reading') ;;
    $'Parse error while reading text bundle:\nat byte 0: expected memory') ;;
    *) return 1 ;;
  esac
}

# holds NAME NUMBER WORD..: one run with one request refused
holds() {
  local name=$1 number=$2
  shift 2
  answer "$number" "$@"
  if [ "$status" = "$want" ] && cmp -s "$work/out" "$work/want_out" \
    && cmp -s "$work/err" "$work/want_err" && cmp -s "$work/out.res" "$work/want.res"; then
    passed=$((passed + 1))
  elif [ "$refused" = yes ] && [ "$status" = 1 ] && [ ! -s "$work/out" ] && says_memory \
    && cmp -s "$work/out.res" "$work/before.res"; then
    passed=$((passed + 1))
  else
    failed=$((failed + 1))
    echo "failed: $name, request $number (status $status)"
    head -c 300 "$work/out" "$work/err"
  fi
}

# refuses_each NAME WORD..: the answer with ample memory, and then each request refused in turn
refuses_each() {
  local name=$1 number
  shift
  answer 0 "$@"
  want=$status
  cp "$work/out" "$work/want_out"
  cp "$work/err" "$work/want_err"
  cp "$work/out.res" "$work/want.res"
  for ((number = 1; number <= most; number++)); do
    holds "$name" "$number" "$@"
    [ "$refused" = yes ] || break
  done
  echo "  $name: $((number - 1)) requests refused in turn, status $want with ample memory"
}

# commands NAME: the three commands on the text in `text` and the file in `file`
commands() {
  cp "$work/text" "$work/in"
  refuses_each "$1 on standard input"
  : > "$work/in"
  refuses_each "$1 compiled" compile "$work/text" "$work/out.res"
  refuses_each "$1 checked" check "$work/file"
}

# each public call: the program compares the answers itself, and ends with 3 where one is want of
# memory
public_calls() {
  local number status
  [ -x "$calls" ] || { echo "failed: $calls is not built"; failed=$((failed + 1)); return; }
  for ((number = 1; number <= 100000; number++)); do
    : > "$work/mark"
    status=0
    REFUSED_REQUEST=$number LD_PRELOAD=$work/refuse.so "$calls" < /dev/null \
      > "$work/out" 2> "$work/err" 9> "$work/mark" || status=$?
    if [ "$status" = 0 ] || { [ "$status" = 3 ] && [ -s "$work/mark" ]; }; then
      passed=$((passed + 1))
    else
      failed=$((failed + 1))
      echo "failed: the public calls, request $number (status $status)"
    fi
    [ -s "$work/mark" ] || break
  done
  echo "  the public calls: $((number - 1)) requests refused in turn"
}

# bytes HEX: these bytes
bytes() { printf "$(printf '%s' "$1" | tr -d ' \n' | sed 's/../\\x&/g')"; }

printf 'b{}' > "$work/in"
"$top/run" < "$work/in" > /dev/null || exit 3

# a flat table, and its file
{
  printf 'flat{'
  for ((entry = 0; entry < 40; entry++)); do
    printf 'key%02d{"value %d"}' $((entry * 7 % 40)) "$entry"
  done
  printf '}'
} > "$work/text"
"$program" compile "$work/text" "$work/file" || exit 3
commands 'a flat table'

# a text of each type, nested; and the file of an array of two arrays of two empty strings
cat > "$work/text" <<'T'
types {
  table { inner { a { "1" } b { "2" } } empty {} }
  array:array { "x", "y" { "z" } :int { -1 } }
  bytes:bin { "00fF10" }
  numbers:intvector { 1, -1, +7, }
  number:int { 42 } // the answer
  string:string { "text" /* and a comment */ }
}
T
bytes '2000da27 14000000 00000200 52657342 02000000 01040000 0000000000000000
  0a000080 07000000 08000000 0d000000 0d000000 00000000 00000000 0a000000
  00000200 00000000 02000000 01000090 01000090' > "$work/file"
commands 'each type'

# a text and a file that are refused
printf 'b { a { "x" } c { "y" { "z" } , } d' > "$work/text"
bytes '2000da27 14000000 00000200 52657342 02000000 01040000 0000000000000000
  09000080 07000000 08000000 0b000000 0b000000 00000000 00000000 09000000
  0000aaaa 01000000 09000080' > "$work/file"
commands 'what is refused'

# smaller texts: strings in an array, with and without a type, bytes, a key that stands twice,
# numbers
number=0
for text in 'b{a:array{"" "x"}}' 'b{a{"x" {"y"} "z"}}' 'b{d:bin{"00fF"}}' 'b{a{x{"1"}}a{"2"}}' \
  'b{i:int{-1}v:intvector{1,-1,}}'; do
  number=$((number + 1))
  printf '%s' "$text" > "$work/text"
  "$program" compile "$work/text" "$work/file" || exit 3
  commands "small text $number"
done

public_calls

echo "memory: $passed passed, $failed failed"
[ "$failed" = 0 ]
