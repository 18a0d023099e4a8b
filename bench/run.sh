#!/usr/bin/env bash
# Times the program on flat tables of 1 kB to 10 MB, the best of five runs each, and its growth per
# tenfold; beside it ICU's genrb where that is installed. Each timed run's output is compared with
# that of the run before.
set -euo pipefail
top=$(cd "$(dirname "$0")/.." && pwd)
work=$(mktemp -d)
trap 'rm -rf "$work"' EXIT
program=$top/crates/resb_tool/out/resb_tool
printf 'b{}' | "$top/run" > /dev/null

# best COMMAND..: the least of five times in microseconds
best() {
  local least=999999999 from to
  for _ in 1 2 3 4 5; do
    from=$(date +%s%N)
    "$@"
    to=$(date +%s%N)
    [ $(((to - from) / 1000)) -lt "$least" ] && least=$(((to - from) / 1000))
  done
  echo "$least"
}
ours() { "$program" < "$work/text" > "$work/hex"; }
theirs() { (cd "$work" && genrb -q -e UTF-8 bench.txt > /dev/null 2>&1); }

before=0
printf '%12s %14s %9s %14s\n' bytes 'resb_tool, us' growth 'genrb, us'
for size in 1000 10000 100000 1000000 10000000; do
  python3 "$top/bench/flat_table.py" "$size" > "$work/text"
  ours
  cp "$work/hex" "$work/first"
  time=$(best ours)
  cmp "$work/first" "$work/hex"
  growth=-
  [ "$before" -gt 0 ] && growth=$(awk "BEGIN { printf \"%.1f\", $time / $before }")
  before=$time
  other=-
  if command -v genrb > /dev/null; then
    cp "$work/text" "$work/bench.txt"
    if theirs; then other=$(best theirs); else other='refused'; fi
  fi
  printf '%12s %14s %9s %14s\n' "$size" "$time" "$growth" "$other"
done
