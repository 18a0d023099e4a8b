#!/usr/bin/env bash
# ICU opens compiled files: what its derb prints of a file is a text again, and that text has the
# same file.
# And what `resb dump` prints of a file is a text for genrb too, of whose file derb prints the same.
# Run by hand, where derb and genrb are installed, and `./prove resb` was run.
# derb prints neither `:table(nofallback)` nor quotes around a key, and keys in their order, so no
# text here needs the first two, and each has its keys in order.
set -uo pipefail
top=$(cd "$(dirname "$0")/.." && pwd)
program=$top/crates/resb_tool/out/resb_tool
resb=$top/crates/resb_cli/out/resb_cli
work=$(mktemp -d)
trap 'rm -rf "$work"' EXIT
passed=0
failed=0
command -v derb > /dev/null || { echo 'derb.sh: derb is not on PATH' >&2; exit 3; }
printf 'b{}' | "$top/run" > /dev/null || exit 3

# opened TEXT: a bundle of the name b
opened() {
  local derbed=0
  printf '%s' "$1" > "$work/text"
  if ! "$program" compile "$work/text" "$work/b.res" 2> "$work/err"; then
    derbed=1
  fi
  derb -c -s "$work" b > "$work/printed" 2> "$work/err" || derbed=1
  if [ "$derbed" = 0 ] && "$program" compile "$work/printed" "$work/again.res" 2> "$work/err" \
    && cmp -s "$work/b.res" "$work/again.res"; then
    passed=$((passed + 1))
  else
    failed=$((failed + 1))
    echo "failed: $1"
    head -c 400 "$work/printed" "$work/err"
  fi
}

# dumped TEXT: a bundle of the name b, whose file is printed, compiled by genrb, and printed by derb
dumped() {
  printf '%s' "$1" > "$work/text"
  if "$program" compile "$work/text" "$work/b.res" 2> "$work/err" \
    && derb -c -s "$work" b > "$work/printed" 2> "$work/err" \
    && "$resb" dump "$work/b.res" > "$work/b.txt" 2> "$work/err" \
    && genrb -q -e UTF-8 -d "$work/icu" "$work/b.txt" > "$work/err" 2>&1 \
    && derb -c -s "$work/icu" b > "$work/again" 2> "$work/err" \
    && diff -q <(grep -v '^//' "$work/printed") <(grep -v '^//' "$work/again") > /dev/null; then
    passed=$((passed + 1))
  else
    failed=$((failed + 1))
    echo "failed after dump: $1"
    head -c 400 "$work/b.txt" "$work/err"
  fi
}

# opened_and_dumped TEXT: both
opened_and_dumped() {
  opened "$1"
  dumped "$1"
}

mkdir "$work/icu"
opened_and_dumped 'b{}'
opened_and_dumped 'b{a{"x"}c{"yz"}}'
opened_and_dumped 'b{k{"aaaaaaaaaaaaaaaaaaaaaaaaaaaaaaaaaaaaaaaa"}}'
opened_and_dumped 'b{a{"b"}blank{" "}z{"é ü 漢 😀"}}'
opened_and_dumped 'b{a{xyz}b{yz}c{z}}'
opened_and_dumped 'b{a:int{-1}b:int{7}}'
opened_and_dumped 'b{a:intvector{1,-1,4294967295}}'
opened_and_dumped 'b{a:bin{"00ff10"}}'
opened_and_dumped 'b{a:array{"x","y"}t{u{v{"w"}}}}'
opened_and_dumped 'b{k{"aaaaaaaaaaaaaaaaaaaaaaaaaaaaaaaaaaaaaaaaa"}}'
opened_and_dumped "b{k{\"$(printf 'a%.0s' $(seq 1007))\"}}"
opened_and_dumped 'b{a:array{:array{:int{1}}:array{:array{"x"}}}}'

echo "derb: $passed passed, $failed failed"
[ "$failed" = 0 ]
