#!/usr/bin/env bash
# Refuses the first, the second, .. request for memory of each built test of the rows, one in each
# run, until a run asks for no more: so each public call that a row makes is refused each of its
# requests. A run has to pass, or to end with an error or an answer that names want of memory; with
# any other, an answer has changed.
#
# tests/memory_rows.sh [MOST] [CRATE..]    of these crates, else of all rows whose tests are built
#                                          (`rt test`). Behind the first MOST requests of a test,
#                                          1000 where none is given, one is refused whose number is
#                                          a tenth greater, and so on: a tree of a million levels
#                                          asks some million times. By hand.
set -uo pipefail
# that it passes, an error that names want of memory, or an answer that does where a row wants
# another
fits='test result: ok\|AllocError\|AllocFailed\|OutOfMemory\|NoMemory\|out of memory'
fits+='\|expected: Memory\|left: .*[Mm]emory'
most=1000
case ${1:-} in [0-9]*) most=$1; shift ;; esac
top=$(cd "$(dirname "$0")/.." && pwd)
work=$(mktemp -d)
trap 'rm -rf "$work"' EXIT
passed=0
failed=0
. "$top/tests/refusing.sh"
make_refusing "$work/refuse.so" || exit 3

# refuses_each PROGRAM TEST: each request of this test in turn, up to the first MOST, and then some
refuses_each() {
  local number=1 odd=0 runs=0
  while :; do
    : > "$work/mark"
    {
      REFUSED_REQUEST=$number LD_PRELOAD=$work/refuse.so "$1" "$2" \
        > "$work/out" 2>&1 9> "$work/mark"
    } 2> /dev/null
    [ -s "$work/mark" ] || break
    if grep -q "$fits" "$work/out"; then
      passed=$((passed + 1))
    else
      odd=$((odd + 1))
      failed=$((failed + 1))
      [ "$odd" -gt 1 ] || { echo "failed: $2, request $number"; head -c 300 "$work/out"; }
    fi
    runs=$((runs + 1))
    number=$((number < most ? number + 1 : number + number / 10 + 1))
  done
  [ "$runs" = 0 ] || echo "  $2: $runs requests refused, one in each run"
}

for name in ${*:-$(cd "$top/crates" && ls -d ./*_rows | sed 's|./||')}; do
  program=$top/crates/$name/out/${name}_tests
  [ -x "$program" ] || { echo "  $name: its tests are not built"; continue; }
  for test in $("$program" --list | sed -n 's/: test$//p'); do refuses_each "$program" "$test"; done
done
echo "memory of rows: $passed passed, $failed failed"
[ "$failed" = 0 ]
