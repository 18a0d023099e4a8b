# shellcheck shell=bash
# Texts that are refused: where, why, and what is said beside that; warnings and limits.
# It is read by tests/resb.sh, behind the parts that stand before it there.
# where a text is refused: line and column in characters, the line, and a mark
printf 'b{\n\ta{"x"} \303\251{"y"}}' > bad.txt
told 1 '' $'bad.txt:2:9: \'\303\251\' needs quotes round its string
 a{"x"} \303\251{"y"}}\n        ^' compile bad.txt
printf 'b{\n a{"x"}' > open.txt
told 1 '' $'open.txt:1:2: expected \'}\' before the text ends inside this\nb{\n ^' compile open.txt
printf 'b{a{"x\377"}}' > bytes.txt
told 1 '' $'bytes.txt:1:7: this is no UTF-8\nb{a{"x?"}}\n      ^' compile bytes.txt
printf 'b{a:float{"x"}}' > type.txt
types='the types are array, bin, binary, int, integer, intvector, string, table'
told 1 '' $'type.txt:1:5: there is no type \'float\'\nb{a:float{"x"}}\n    ^\n'"type.txt: $types" \
  compile type.txt
printf 'b{a:int{x}}' > number.txt
told 1 '' $'number.txt:1:9: expected a number\nb{a:int{x}}\n        ^' compile number.txt
printf 'b{a:bin{"0"}}' > digits.txt
told 1 '' $'digits.txt:1:9: an odd number of hex digits (1): each byte has two\nb{a:bin{"0"}}\n        ^' \
  compile digits.txt
printf 'b{a{:int}}' > brace.txt
told 1 '' $'brace.txt:1:9: expected \'{\'\nb{a{:int}}\n        ^' compile brace.txt
printf 'b{a{,}}' > item.txt
told 1 '' $'item.txt:1:5: expected a resource\nb{a{,}}\n    ^' compile item.txt
printf 'b{}c' > end.txt
told 1 '' $'end.txt:1:4: the bundle ends before this, and a text has only one\nb{}c\n   ^' \
  compile end.txt
printf '{}' > string.txt
told 1 '' $'string.txt:1:1: the bundle has no name\n{}\n^' compile string.txt

# each refusal of the page GRAMMAR by a text that shows it, on its third line: what is said first
while IFS=@ read -r column message text; do
  printf '\n\n%s' "$text" > case.txt
  (exec -a resb "$program" compile case.txt) > out 2> err
  if [ "$?" = 1 ] && [ "$(head -n 1 err)" = "case.txt:3:$column: $message" ]; then
    passed=$((passed + 1))
  else
    failed=$((failed + 1))
    printf '%s: ' "$text"
    head -n 1 err
  fi
done << 'END'
1@expected a string@
12@expected a string@b{a:string{}}
5@nothing closes this quote@b{a{"x
3@expected '{'@b x
6@expected '{'@b{"x"}
9@expected '{'@b:table (nofallback){}
2@expected '}' before the text ends inside this@b{
11@expected '}'@b{a:int{1 2}}
15@expected '}'@b{v:intvector{x}}
16@expected '}'@b{v:intvector{,1}}
17@a comma is missing before this number@b{v:intvector{1 2}}
17@two commas in a row@b{v:intvector{1,,}}
5@there is no type 'import'@b{a:import{"x"}}
5@there is no blank between ':' and a type@b{a: int{1}}
2@the root is a table: its type is table, if it has one@b:array{}
9@expected a number@b{i:int{x}}
9@an integer has 28 bits: -134217728 to 268435455@b{i:int{4294967296}}
9@an odd number of hex digits (1): each byte has two@b{d:bin{"0"}}
12@' ' is no hex digit@b{d:bin{"00 ff"}}
5@expected a resource@b{a{,}}
9@expected a resource@b{a{"x",,}}
4@the bundle ends before this, and a text has only one@b{}x
4@this comment has no end: a '*/' is missing@b{}/*
END
printf 'b{"k\0"{"x"}}' > nul.txt
told 1 '' 'nul.txt: Unexpected error: key contains U+0000' compile nul.txt

# what is said beside a refusal: what was meant, and where to look
for word in integre:integer integr:integer strnig:string inte:int INT:int; do
  printf 'b{a:%s{5}}' "${word%:*}" > type.txt
  told 1 '' "type.txt:1:5: there is no type '${word%:*}'; is ${word#*:} meant?
b{a:${word%:*}{5}}
    ^
type.txt: $types" compile type.txt
done
printf 'b{a:strin{"x"}}' > type.txt
told 1 '' "type.txt:1:5: there is no type 'strin'; is string meant?
b{a:strin{\"x\"}}
    ^
type.txt: the types are alias,${types#the types are}" compile --icu type.txt
printf 'b:array{}' > root.txt
told 1 '' 'root.txt:1:2: the root is a table: its type is table, if it has one
b:array{}
 ^' compile root.txt
printf 'b{a:int{4294967296}}' > range.txt
for form in '' --icu; do
  # shellcheck disable=SC2086
  told 1 '' 'range.txt:1:9: an integer has 28 bits: -134217728 to 268435455
b{a:int{4294967296}}
        ^' compile $form range.txt
done
printf 'b{a:int{3.5}}' > point.txt
told 1 '' "point.txt:1:10: numbers are whole
b{a:int{3.5}}
         ^" compile point.txt
told 1 '' "point.txt:1:9: numbers are whole
b{a:int{3.5}}
        ^" compile --icu point.txt
printf 'b{a:alias{"/c"}}' > alias.txt
told 1 '' "alias.txt:1:5: there is no type 'alias'
b{a:alias{\"/c\"}}
    ^
alias.txt: texts of ICU's own form are read with --icu" compile alias.txt
printf 'b{a{"x"} ,c{"y"}}' > comma.txt
for form in '' --icu; do
  # shellcheck disable=SC2086
  told 1 '' 'comma.txt:1:10: commas stand between members of an array, not between entries of a table
b{a{"x"} ,c{"y"}}
         ^' compile $form comma.txt
done
printf 'b{a{"x\\"y"}}' > escape.txt
told 1 '' 'escape.txt:1:10: a quote is missing where this string begins
b{a{"x\"y"}}
         ^
escape.txt: texts of ICU'"'"'s own form are read with --icu' compile escape.txt
printf 'b{\n  a{"x}\n  c{"y"}\n}\n' > quote.txt
told 1 '' 'quote.txt:2:5: the quote that closes this string may be missing in its line
  a{"x}
    ^
quote.txt:3:7: expected a string' compile quote.txt
printf 'b{\n  // }\n  a{\n    x{"{"}\n\n  c{"2"}\n  d{"3"}\n}\n' > outdent.txt
for form in : '--icu:a key or '; do
  # shellcheck disable=SC2086
  told 1 '' "outdent.txt:6:3: a '}' may be missing before this line, which is indented too little \
for its group
  c{\"2\"}
  ^
outdent.txt:1:2: expected ${form#*:}'}' before the text ends inside this" \
    compile ${form%%:*} outdent.txt
done
# where no line is indented, none is
printf 'b{\na{\nx{"1"}\n' > flat.txt
told 1 '' "flat.txt:2:2: expected a resource before the text ends inside this
a{
 ^" compile flat.txt

# texts in UTF-16, by their mark
printf 'b{a{"\303\251\360\237\230\200"}}' > eight.txt
for order in LE BE; do
  printf '\376\377' > sixteen.txt
  [ $order = BE ] || printf '\377\376' > sixteen.txt
  iconv -f UTF-8 -t UTF-16$order eight.txt >> sixteen.txt
  told 0 '' '' compile --quiet eight.txt sixteen.txt
  same eight.res sixteen.res
  told 0 '' '' compile --icu --quiet sixteen.txt
  same eight.res sixteen.res
done
printf '\377\376b\0{\0}' > odd.txt
printf '\377\376b\0{\0\0\330}\0' > half.txt
told 1 '' 'odd.txt: this is no UTF-16
half.txt: this is no UTF-16' compile odd.txt half.txt

# warnings change nothing
printf 'b{a{"x\\y"}a{"z"}l:array{"p" "q"}}' > warn.txt
told 0 '' "warn.txt:1:7: warning: this backslash is a character here, and an escape for genrb
warn.txt:1:11: warning: duplicate key 'a', first at column 3; genrb refuses that
warn.txt:1:29: warning: this string is an item of its own here; genrb joins it to the one before" \
  compile warn.txt -o warn.res
# a key is named with its hidden characters, and cut where it is long
printf 'b{"a\033"{x}"a\033"{y}}' > hidden.txt
told 0 '' \
  "hidden.txt:1:10: warning: duplicate key 'a\u{1b}', first at column 3; genrb refuses that" \
  compile hidden.txt -o hidden.res
printf 'b{%02000d{x}%02000d{y}}' 0 0 > doubled.txt
told 0 '' "doubled.txt:1:2006: warning: duplicate key '$(printf '%0500d..%0500d' 0 0)', first at \
column 3; genrb refuses that" compile doubled.txt -o doubled.res
# nor do those of what would be lost without a word
printf 'b{a{}i:int{300000000}o:intvector{010,-07,0}c{x{"1"},y{"2"},}n:int{-200000000}' > lost.txt
printf 'q{k{"1"}lone}z:table{}}' >> lost.txt
told 0 '' "lost.txt:1:5: warning: the empty group that ends here is a Table, and an Array for genrb
lost.txt:1:12: warning: this number has more than 28 bits; 31564544 is kept
lost.txt:1:34: warning: this number is decimal here; genrb takes its 0 for that of an octal one
lost.txt:1:52: warning: pairs with commas are an Array; genrb refuses this
lost.txt:1:67: warning: this number has more than 28 bits; 68435456 is kept
lost.txt:1:86: warning: this string has no group, so that all are an Array; genrb refuses this" \
  compile lost.txt -o lost.res
lost='{"a":{},"c":["x","1","y","2"],"i":31564544,"n":68435456,"o":[10,-7,0],'
lost+='"q":["k","1","lone"],"z":{}}'
told 0 "$lost" '' \
  dump --json lost.res

# one text that fails doesn't stop the others
told 1 '' $'open.txt:1:2: expected \'}\' before the text ends inside this\nb{\n ^' \
  compile open.txt names.txt -d .
told 2 '' 'none.txt: no such file' compile none.txt
told 2 '' 'names.txt: writing names.txt would replace names.txt, which this call reads' compile names.txt -o names.txt
told 2 '' 'resb: --output is for one text; --directory is for several' \
  compile names.txt again.txt -o x.res
told 1 '' 'names.txt: Invalid resource bundle data: magic word does not match' check names.txt
[ -z "$(ls ./*.part 2> /dev/null)" ] && passed=$((passed + 1)) || failed=$((failed + 1))

# a tree may be asked to take no more bytes than a limit
told 0 'hello' '' get names.res hi --limit 100000
told 0 'hello' '' get names.res hi --limit 2589
told 1 '' 'names.res: the tree takes 2589 bytes, more than the limit of 2588' \
  get names.res hi --limit 2588
told 1 '' 'names.res: the tree takes 2589 bytes, more than the limit of 10' \
  dump --limit 10 names.res
told 2 '' 'resb: --limit is a number of bytes' dump --limit ten names.res
# nor may the keys of its entries together, its text, or its JSON
printf 'key{%02000d{x}}' 0 > key.txt
told 0 '' '' compile key.txt
told 1 '' 'key.res: the keys of its entries take 2000 bytes, more than the limit of 1999' \
  dump --limit 1999 key.res
told 1 '' 'key.res: its text takes 2017 bytes, more than the limit of 2016' \
  dump --limit 2016 key.res
told 1 '' "key.res: its text in ICU's form takes 2017 bytes, more than the limit of 2016" \
  dump --icu --limit 2016 key.res
told 0 "$(printf 'key{\n    %02000d{"x"}\n}' 0)" '' dump --limit 2017 key.res
printf 'long{b:bin{"%06000d"}}' 0 > long.txt
told 0 '' '' compile long.txt
told 0 "$(printf '{"b":{"binary":"%06000d"}}' 0)" '' dump --json --limit 6019 long.res
told 1 '' 'long.res: its JSON takes 6019 bytes, more than the limit of 6018' \
  dump --json --limit 6018 long.res
told 1 '' 'long.res: its JSON takes 6013 bytes, more than the limit of 6012' \
  get --limit 6012 long.res b
told 0 "$(printf '{"binary":"%06000d"}' 0)" '' get --limit 6013 long.res b
# where keys and binaries alone are over the limit, no more is counted
over='takes at least 6001 bytes, more than the limit of 6000'
told 1 '' "long.res: its text $over" dump --limit 6000 long.res
told 1 '' "long.res: its text in ICU's form $over" dump --icu --limit 6000 long.res
told 1 '' "long.res: its JSON $over" dump --json --limit 6000 long.res
told 1 '' 'long.res: its JSON takes at least 6000 bytes, more than the limit of 5999' \
  get --limit 5999 long.res b

# so may the reading of a text
printf 'b{k{v}}' > small.txt
told 0 '' '' compile small.txt --limit 470 -o small.res
told 0 'v' '' get small.res k
told 1 '' 'small.txt: reading this text takes more than the limit of 469 bytes' \
  compile --limit 469 small.txt
# each number of a vector is weighed as it comes: 88 for the root's brace, 115 for v, 8 for 1
printf 'b{v:intvector{1,x' > vector.txt
told 1 '' 'vector.txt: reading this text takes more than the limit of 210 bytes' \
  compile --limit 210 vector.txt
told 1 '' $'vector.txt:1:17: expected \'}\'\nb{v:intvector{1,x\n                ^' \
  compile --limit 211 vector.txt
told 2 '' 'resb: --limit is a number of bytes' compile small.txt --limit ten

# where no text holds a string, the path to it is said
printf 'path{zones{Pole{list{"first","other"} note{"plain"}}}}' > path.txt
told 0 '' '' compile path.txt
python3 - << 'END'
data = open("path.res", "rb").read()
old, new = "other".encode("utf-16-le"), 'oth"r'.encode("utf-16-le")
open("path.res", "wb").write(data.replace(old, new))
END
told 0 '{"zones":{"Pole":{"list":["first","oth\"r"],"note":"plain"}}}' \
  "path.res: this has no text, since a string holds a '\"' at zones/Pole/list/1; here is its JSON" \
  dump path.res

# files of other forms are read or refused by name
python3 - << 'END'
data = bytearray(open("names.res", "rb").read())
other = bytearray(data)
other[16] = 3
open("three.res", "wb").write(other)
other[16] = 1
open("one.res", "wb").write(other)
END
told 0 'three.res: 8 resources, format 3.0, fallback, largest table 5' '' check three.res
told 1 '' 'one.res: Unsupported resource bundle format: format version 1.0 is not supported' \
  check one.res

# a long line is cut round the place: 60 bytes before it, and 60 from it on
letters=$(printf 'x%.0s' $(seq 200))
printf 'b{a:int{%s}}' "$letters" > long.txt
told 1 '' "long.txt:1:9: expected a number
b{a:int{$(printf 'x%.0s' $(seq 60))
        ^" compile long.txt
printf 'b{k{"%s"}a:int{%s}}' "$letters" "$letters" > later.txt
told 1 '' "later.txt:1:214: expected a number
$(printf 'x%.0s' $(seq 52))\"}a:int{$(printf 'x%.0s' $(seq 60))
$(printf ' %.0s' $(seq 60))^" compile later.txt
