#!/usr/bin/env bash
# Streams and files that fail: a full disk, a closed pipe, a folder or nothing at all as IN or OUT,
# and input that comes in pieces. The program ends with a status and a line, and never by a signal
# (but for the one that ends any program which writes past a limit on the size of files).
set -uo pipefail
top=$(cd "$(dirname "$0")/.." && pwd)
program=$top/crates/resb_tool/out/resb_tool
work=$(mktemp -d)
trap 'chmod -R u+w "$work"; rm -rf "$work"' EXIT
passed=0
failed=0

# ends NAME WANTED-STATUS STATUS WANTED-LINE: what the last run ended with, its line in `err`
ends() {
  if [ "$3" = "$2" ] && [ "$(cat "$work/err")" = "$4" ]; then
    passed=$((passed + 1))
  else
    failed=$((failed + 1))
    echo "failed: $1 (status $3)"
    head -c 400 "$work/err"
  fi
}

# holds NAME COMMAND..: whether the command succeeds
holds() {
  local name=$1
  shift
  if "$@"; then
    passed=$((passed + 1))
  else
    failed=$((failed + 1))
    echo "failed: $name"
  fi
}

# runs WORD..: runs the program; its status in `status`
runs() {
  status=0
  "$program" "$@" 2> "$work/err" || status=$?
}

# a flat table of so many entries
table() {
  local entry
  printf 'b{'
  for ((entry = 0; entry < $1; entry++)); do printf 'k%05d{v%d}' "$entry" "$entry"; done
  printf '}'
}

printf 'b{a{x}}' > "$work/text"
table 4000 > "$work/long"
"$top/run" < "$work/text" > "$work/line" || exit 3
"$program" compile "$work/text" "$work/file" || exit 3
"$program" < "$work/long" > "$work/long_line" || exit 3

# standard output
runs < "$work/text" > /dev/full
ends 'a full disk behind standard output' 2 "$status" 'cannot write standard output'
runs < "$work/long" > /dev/full
ends 'a full disk behind a long line' 2 "$status" 'cannot write standard output'
runs check "$work/file" > /dev/full
ends 'a full disk behind the count' 2 "$status" 'cannot write standard output'
runs < "$work/text" >&-
ends 'no standard output' 2 "$status" 'cannot write standard output'
for text in text long; do
  # the reader of the pipe has gone before anything is written
  {
    status=0
    sleep 0.2
    "$program" < "$work/$text" 2> "$work/err" || status=$?
    echo "$status" > "$work/status"
  } | true
  ends "a closed pipe behind the line of $text" 2 "$(cat "$work/status")" \
    'cannot write standard output'
done
{
  status=0
  sleep 0.2
  "$program" check "$work/file" 2> "$work/err" || status=$?
  echo "$status" > "$work/status"
} | true
ends 'a closed pipe behind the count' 2 "$(cat "$work/status")" 'cannot write standard output'
# the line is longer than a pipe holds, so it can't be written whole before `head` goes
{
  status=0
  "$program" < "$work/long" 2> "$work/err" || status=$?
  echo "$status" > "$work/status"
} | head -c 5 > "$work/front"
ends 'a pipe that is closed in the middle' 2 "$(cat "$work/status")" 'cannot write standard output'

# standard input
runs < "$work" > "$work/out"
ends 'a folder as standard input' 2 "$status" 'cannot read standard input'
runs <&- > "$work/out"
ends 'no standard input' 2 "$status" 'cannot read standard input'
{ sleep 0.1; head -c 7 "$work/long"; sleep 0.1; tail -c +8 "$work/long"; } \
  | "$program" > "$work/out"
holds 'a text that comes in two pieces' cmp -s "$work/out" "$work/long_line"
while IFS= read -r -n 1 -d '' byte; do printf '%s' "$byte"; sleep 0.01; done < "$work/text" \
  | "$program" > "$work/out"
holds 'a text that comes byte by byte' cmp -s "$work/out" "$work/line"

# IN
runs compile "$work" "$work/none"
ends 'a folder as IN' 2 "$status" "cannot read $work"
runs check "$work"
ends 'a folder to check' 2 "$status" "cannot read $work"
runs compile "$work/no such" "$work/none"
ends 'IN that is not there' 2 "$status" "cannot read $work/no such"
runs check "$work/no such"
ends 'no file to check' 2 "$status" "cannot read $work/no such"
runs compile '' "$work/none"
ends 'a name of no letters' 2 "$status" 'cannot read '
holds 'no OUT was made' [ ! -e "$work/none" ]

# OUT
runs compile "$work/text" "$work"
ends 'a folder as OUT' 2 "$status" "cannot write $work"
runs compile "$work/text" "$work/no such/out"
ends 'OUT in a folder that is not there' 2 "$status" "cannot write $work/no such/out"
runs compile "$work/text" /dev/full
ends 'a full disk behind OUT' 2 "$status" 'cannot write /dev/full'
printf 'b{' > "$work/open"
cp "$work/file" "$work/kept"
runs compile "$work/open" "$work/kept"
ends 'a text that is refused' 1 "$status" \
  $'Parse error while reading text bundle:\nat byte 2: expected \'}\''
holds 'OUT is kept where the text is refused' cmp -s "$work/file" "$work/kept"
runs compile "$work/text" "$work/text"
holds 'OUT may be IN' cmp -s "$work/file" "$work/text"

echo "streams: $passed passed, $failed failed"
[ "$failed" = 0 ]
