# shellcheck shell=bash
# Texts of ICU's own form.
# It is read by tests/resb.sh, behind the parts that stand before it there.
# a text of ICU's own form, and the same in the other form; a text that isn't in ICU's form
printf '\357\273\277en {\n a { "x\\u00e9" // one\n "y" }\n e {} p { 100%% }\n}\n' > icu.txt
printf 'en{a{"x\303\251y"}e:array{}p{"100%%"}}' > plain.txt
told 0 '' '' compile --icu icu.txt -o icu.res
told 0 '' '' compile plain.txt -o plain.res
same icu.res plain.res
told 1 '' $'icu.txt:1:1: expected a string\n\357\273\277en {\n^
icu.txt: texts of ICU\'s own form are read with --icu' compile icu.txt
# the character that only ICU's words have says so, another one doesn't
for character in _ % . +; do
  printf '%s' "b$character{}" > word.txt
  told 1 '' "word.txt:1:2: '$character' needs quotes round its string
b$character{}
 ^
word.txt: texts of ICU's own form are read with --icu" compile word.txt
done
printf 'b={}' > word.txt
told 1 '' "word.txt:1:2: expected '{'"$'\nb={}\n ^' compile word.txt
printf 'b{a{x}\n a{y}}' > twice.txt
told 1 '' $'twice.txt:2:2: duplicate key \'a\', first at line 1\n a{y}}\n ^' \
  compile --icu twice.txt
# the first of several, where quotes are hidden before, and other tables have these keys
cat > keys.txt <<'END'
b{
  a{"x\"y{"} t{ k{"1"} k_9:int{1} k_1.x{"2"} } // { k
  u:array{ { k{"1"} } "k" }
  k_1.x{"1"} k{"3"}
  "k_1.x":array{ "4" }
  k{"5"}
}
END
told 1 '' $'keys.txt:5:3: duplicate key \'k_1.x\', first at line 4
  "k_1.x":array{ "4" }\n  ^' compile --icu keys.txt
printf 'b{a{"\\x"}}' > escape.txt
told 1 '' $'escape.txt:1:6: expected a known escape\nb{a{"\\x"}}\n     ^
escape.txt: a backslash itself is written as \\\\' \
  compile --icu escape.txt
printf 'b{a{"x"}' > half.txt
told 1 '' $'half.txt:1:2: expected a key or \'}\' before the text ends inside this\nb{a{"x"}\n ^' \
  compile --icu half.txt
printf 'b{a{"\\"{"} c{/*/ } */' > inner.txt
told 1 '' $'inner.txt:1:13: expected a resource or \'}\' before the text ends inside this
b{a{"\\"{"} c{/*/ } */\n            ^' compile --icu inner.txt
# within a limit: 88 for the root's brace, 179 for k, which begins a table, 88 for its group,
# 3 for v
told 0 '' '' compile --icu --limit 358 small.txt -o small.res
told 1 '' 'small.txt: reading this text takes more than the limit of 357 bytes' \
  compile --icu --limit 357 small.txt
# a string of pieces is weighed before it is put together, 3 for each of its two bytes, and 32 and 1
# for each for the memory that is asked for it, and only where it may stand
printf 'b{k{"v" "\\u0076"}}' > pieces.txt
told 0 '' '' compile --icu --limit 395 pieces.txt -o pieces.res
told 0 'vv' '' get pieces.res k
told 1 '' 'pieces.txt: reading this text takes more than the limit of 394 bytes' \
  compile --icu --limit 394 pieces.txt
printf 'b{k{"v" "v":' > stuck.txt
told 1 '' $'stuck.txt:1:9: a key is one string, and this is a second one\nb{k{"v" "v":\n        ^' \
  compile --icu --limit 355 stuck.txt
# and each number of a vector as it comes
told 1 '' 'vector.txt: reading this text takes more than the limit of 274 bytes' \
  compile --icu --limit 274 vector.txt
told 1 '' $'vector.txt:1:17: expected a number or \'}\'\nb{v:intvector{1,x\n                ^' \
  compile --icu --limit 275 vector.txt

# each refusal of a text in ICU's form (docs/ICU_TEXTS.md), at the column of its mistake
icu_row() {
  local mark line=$'\n'
  mark=$(printf '%*s' $(($2 - 1)) '')^
  printf '%s' "$1" > row.txt
  told 1 '' "row.txt:1:$2: $3$line$1$line$mark${4:+${line}row.txt: $4}" compile --icu row.txt
}
backslash='a backslash itself is written as \\'
icu_row '{' 1 'the bundle has no name'
icu_row 'b:int{}' 2 "expected 'table' or 'table(nofallback)'"
icu_row 'b}' 2 "expected '{'"
icu_row 'b{a}' 4 "expected '{' or a type"
icu_row 'b{a:foo{}}' 5 "there is no type 'foo'" "the types are alias,${types#the types are}"
icu_row 'b{a:alias{}}' 11 'expected a string'
icu_row 'b{a:import{}}' 4 "expected a type of a tree, and 'import' is none"
icu_row 'b{a:include{}}' 4 "expected a type of a tree, and 'include' is none"
icu_row 'b{a:process(x){}}' 4 "expected a type of a tree, and 'process' is none"
icu_row 'b{a:string{}}' 12 'expected a string'
icu_row 'b{a:string{"x",}}' 15 'a group of this type has one value'
icu_row 'b{a:bin{"0"}}' 9 'an odd number of hex digits (1): each byte has two'
icu_row 'b{a:int{x}}' 9 'expected a number'
icu_row 'b{a:intvector{x}}' 15 "expected a number or '}'"
icu_row 'b{a:intvector{1 2}}' 17 "expected a comma or '}'"
icu_row 'b{a{"\x"}}' 6 'expected a known escape' "$backslash"
icu_row 'b{a{"x" "\u005C"}}' 10 'expected a known escape' "$backslash"
icu_row 'b{a{"\ud800"}}' 6 'expected both halves of a surrogate pair, since a string is text'
icu_row 'b{a{"\U00110000"}}' 6 'expected a known escape' "$backslash"
icu_row 'b{a{"\u12' 6 'expected a known escape' "$backslash"
icu_row 'b{"\q"{x}}' 4 "'\' can't stand in a key"
icu_row '"b\q"{}' 3 "'\' can't stand in the bundle's name"
icu_row 'b{a{"x" "y}}' 9 'expected a quote that closes this string'
icu_row 'b{a{x}"k{y}}' 7 'expected a quote that closes this string'
icu_row 'b{a{,}}' 5 "expected a resource or '}'"
icu_row 'b{a:array{"" /}}' 14 "a comment begins with '//' or '/*'"
icu_row 'b{a{"" y}}' 8 "expected '}', a comma, '{' or a type"
icu_row 'b{a{"\"" {}}}' 6 "'\\' can't stand in a key"
icu_row 'b{a:array{"" y}}' 14 'expected a comma between two strings'
icu_row 'b{a{x} /}' 8 "a comment begins with '//' or '/*'"
icu_row 'b{a{x} a{y}}' 8 "duplicate key 'a', first at column 3"
icu_row 'b{a/b{x} a/b{y}}' 10 "duplicate key 'a/b', first at column 3"
icu_row 'b{(a){x} a{y} a{z}}' 15 "duplicate key 'a', first at column 10"
icu_row 'b{}x\' 4 'the bundle ends before this, and a text has only one'
icu_row 'b{} x /* y */' 5 'the bundle ends before this, and a text has only one'
icu_row 'b{} /* x */ } /*' 13 "this '}' is one too many"

# a file's text in ICU's own form, which is compiled to the same file; and a file that has none
told 0 $'icu{\n    a{"x\303\251y"}\n    e:array{}\n    p{"100%"}\n}' '' dump --icu icu.res
printf 'marks:table(nofallback){"a b"{"\\\\\\"\\n"}""{"x"}}' > marks.txt
told 0 '' '' compile --icu marks.txt
marks=$'marks:table(nofallback){\n    ""{"x"}\n    "a b"{"\\\\\\"\\u000a"}\n}'
told 0 "$marks" '' dump --icu marks.res
printf '%s' "$marks" > again.txt
told 0 '' '' compile --icu again.txt -o again.res
told 0 "${marks/marks/again}" '' dump --icu again.res
# an alias has a text in ICU's form alone
printf 'alias{b:alias{"/c"}}' > alias.txt
told 0 '' '' compile --icu alias.txt
told 0 '{"b":{"alias":"/c"}}' "alias.res: this has no text, since an alias stands at b, which \
--icu prints; here is its JSON" dump alias.res
told 0 $'alias{\n    b:alias{"/c"}\n}' '' dump --icu alias.res
printf 'keys{"a["{"x"}}' > keys.txt
told 0 '' '' compile keys.txt
told 0 '{"a[":"x"}' "keys.res: this has no text in ICU's form, since a key has a character \
that may not stand in one at a[; here is its JSON" dump --icu keys.res
told 2 '' $'error: the argument \'--icu\' cannot be used with \'--json\'

Usage: resb dump --icu <FILE>...

For more information, try \'--help\'.' dump --icu icu.res --json

# escapes and numbers as genrb takes them: the tree is that of its file (ICU 72.1)
printf 'w{a{"\\q\\ud84d\\udc56\\a"}n:int{010}h:int{0x1F}e:int{""}}' > w.txt
told 0 '' 'w.txt:1:6: warning: no escape begins so; the backslash is dropped, and its character stays
w.txt:1:30: warning: the 0 makes this number octal' compile --icu w.txt
told 0 $'w{
    a{"q\U00023456\a"}
    e:int{0}
    h:int{31}
    n:int{8}
}' '' dump w.res
told 1 '' 'w.txt:1:6: warning: no escape begins so; the backslash is dropped, and its character stays
w.txt:1:30: warning: the 0 makes this number octal
w.txt: no file is written, since this has warnings' compile --icu --strict w.txt
# text behind the bundle, which genrb warns of too: nothing is told of it but where it begins, and
# which `}` may be wrong
behind_row() {
  printf '%b' "$2" > row.txt
  told 0 '' "${1:+row.txt:$1}" compile --icu row.txt -o row.res
  same row.res once.res
  [ -z "$1" ] || told 1 '' "row.txt:$1
row.txt: no file is written, since this has warnings" compile --icu --strict row.txt -o none.res
}
nothing='warning: the bundle has ended before this; nothing from here on is read'
printf 'row{a{x}}' > once.txt
told 0 '' '' compile --icu once.txt -o once.res
behind_row '' 'row{a{x}} // }\n'
behind_row "1:11: $nothing" 'row{a{x}} c{n:int{08}m{{0} "x"y}}'
behind_row "1:10: $nothing" 'row{a{x}}/'
behind_row "1:10: $nothing" 'row{a{x}}"y'
behind_row "2:1: $nothing" 'row{a{x}} // y\n\357\273\277'
behind_row "1:14: $nothing" 'row{a{x}} // \342\200\251y'
behind_row "1:11: warning: this '}' is one too many; nothing more is read" 'row{a{x}} }'
behind_row "2:6: warning: the bundle ends with this '}', and text stands behind it; nothing more is read" \
  'row{\n a{x}}\n c{y}\n}'
