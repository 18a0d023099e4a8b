#!/usr/bin/env bash
# Stored sessions of each command of the program `resb`: what is printed, what is said on standard
# error, and the status. The last line says how many there are, as 'N passed, M failed'.
set -uo pipefail
top=$(cd "$(dirname "$(readlink -f "$0")")/.." && pwd)
program=$top/crates/resb_cli/out/resb_cli
folder=$(mktemp -d)
trap 'rm -rf "$folder"' EXIT
cd "$folder"
passed=0
failed=0

# told STATUS OUTPUT ERROR WORD..: the session of these words, on a stack of so many kB as `stack`
# says, if it is set
told() {
  local status=$1 output=$2 error=$3 got
  shift 3
  ([ -z "${stack:-}" ] || ulimit -s "$stack"
   exec -a resb "$program" "$@") > out 2> err < "${input:-/dev/null}"
  got=$?
  if [ "$got" = "$status" ] && [ "$(cat out)" = "$output" ] && [ "$(cat err)" = "$error" ]; then
    passed=$((passed + 1))
  else
    failed=$((failed + 1))
    printf 'resb %s: status %s\n' "$*" "$got"
    diff <(printf '%s\n' "$output") out
    diff <(printf '%s\n' "$error") err
  fi
}

# same FILE OTHER: two files of one content
same() {
  if cmp -s "$1" "$2"; then passed=$((passed + 1)); else failed=$((failed + 1)); echo "$1, $2"; fi
}

# holds FOLDER NAMES: the names in a folder
holds() {
  local names
  names=$(ls "$1" | xargs)
  if [ "$names" = "$2" ]; then passed=$((passed + 1))
  else failed=$((failed + 1)); echo "$names"; fi
}

[ -x "$program" ] || { echo "$program isn't built"; echo '0 passed, 1 failed'; exit 1; }

# each part goes on in the folder of those before it
for part in files orders refusals icu several scripts genrb mistakes writing; do
  # shellcheck disable=SC1090
  . "$top/tests/sessions/$part.bash"
done

told 0 'resb 0.2.0' '' --version
# the usage names the program, whatever its file is called, and a line's end is the last byte
helps() {
  local usage=$1 line=$2
  shift 2
  (exec -a ./other "$program" "$@") > help.txt \
    && grep -q "^Usage: $usage " help.txt && grep -q "$line" help.txt \
    && [ "$(tail -c 1 help.txt | od -An -tx1)" = ' 0a' ] \
    && passed=$((passed + 1)) || { failed=$((failed + 1)); echo "$*"; cat help.txt; }
}
for command in compile check dump get diff list extract swap genrb derb; do
  helps "resb $command" "^Example: resb $command" help "$command"
  helps "resb $command" "^Example: resb $command" "$command" --help
done
helps resb '^  compile ' --help
(exec -a ./other "$program" check --nothing) 2> err
grep -q '^Usage: resb check ' err \
  && passed=$((passed + 1)) || { failed=$((failed + 1)); cat err; }
echo "$passed passed, $failed failed"
[ "$failed" = 0 ]
