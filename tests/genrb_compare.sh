#!/usr/bin/env bash
# Compiles texts that ICU's genrb reads the same way, with both programs, and compares the files
# byte for byte. Run by hand, where genrb is installed. Each text is a bundle of the name b, whose
# groups mean the same in both grammars; where the files differ for a known reason, the reason
# stands with it.
set -uo pipefail
top=$(cd "$(dirname "$0")/.." && pwd)
program=$top/crates/resb_tool/out/resb_tool
work=$(mktemp -d)
trap 'rm -rf "$work"' EXIT
equal=0
known=0
failed=0
command -v genrb > /dev/null || { echo 'genrb_compare.sh: genrb is not on PATH' >&2; exit 3; }
printf 'b{}' | "$top/run" > /dev/null || exit 3

# compared REASON TEXT: REASON is empty where the files have to be equal
compared() {
  printf '%s' "$2" > "$work/b.txt"
  "$program" compile "$work/b.txt" "$work/ours.res" \
    && genrb -q -d "$work" -s "$work" b.txt > /dev/null 2>&1 || {
    failed=$((failed + 1))
    echo "failed: $2"
    return
  }
  if cmp -s "$work/ours.res" "$work/b.res"; then
    equal=$((equal + 1))
  elif [ -n "$1" ]; then
    known=$((known + 1))
    echo "differs, $1: $2"
  else
    failed=$((failed + 1))
    echo "differs: $2"
  fi
}

letters() { printf 'a%.0s' $(seq "$1"); }

compared '' 'b{a{"x"}c{"yz"}}'
compared '' 'b{a{"xyz"}c{"yz"}}'
compared '' 'b{a{"xa"}b{"ya"}c{"a"}}'
compared '' 'b{z{"x"}a{"y"}m{"x"}}'
compared '' 'b{a:int{-1}b:int{7}}'
compared '' 'b{v:intvector{1,-1,70000}w:intvector{1}}'
compared '' 'b{d:bin{"00ff10"}e:bin{"000102030405060708090a0b0c0d0e0f10"}}'
compared '' 'b{a:array{"x","y","z"}}'
compared '' 'b{a:array{"x",:int{1},{k{"v"}}}}'
compared '' 'b{a:array{:array{:int{1}}:array{:array{"x"}}}}'
compared '' 'b{t:table{u:table{v{"w"}}}n{"w"}}'
compared '' 'b{t:table{k{"v"}l:int{1}m:bin{"aa"}}}'
compared '' 'b{a{"é"}b{"ü漢"}c{"漢"}d{"😀"}}'
compared '' "b{k{\"$(letters 40)\"}l{\"$(letters 39)\"}}"
compared '' "b{k{\"$(letters 41)\"}}"
compared '' "b{k{\"$(letters 1006)\"}l{\"$(letters 1007)\"}}"
compared 'an end of two marked strings lies in the other' \
  "b{k{\"$(letters 41)\"}l{\"$(letters 42)\"}m{\"a\"}}"
compared 'an empty string beside others is a word 0 there' 'b{a:array{"",:int{1}}}'
compared 'an empty group is an array there' 'b{a{}}'
compared 'words in a row are joined there' 'b{a{hello world}}'
compared 'strings in a row are joined there' 'b{a{"x" "y"}}'
compared 'a comment ends at U+2029 there' $'b{a{"x"}//c\u2029d{"y"}\n}'
compared 'a backslash begins an escape there' 'b{a{"\u0041"}}'
compared 'a number that begins with 0 is octal there' 'b{a:int{010}}'
compared 'a collation gets its binary form there' 'b{collations{standard{Sequence{"&a<b"}}}}'
compared '' 'b:table(nofallback){a{"x"}}'

echo "genrb: $equal equal, $known differ for a known reason, $failed failed"
[ "$failed" = 0 ]
