# shellcheck shell=bash
# What scripts ask for: warnings, names by the bundle, folders, JSON, several paths and files.
# It is read by tests/resb.sh, behind the parts that stand before it there.
# a text with warnings: without them, refused for them, and without a file
mkdir alone
told 0 '' '' compile --quiet warn.txt -d alone
holds alone warn.res
warned="warn.txt:1:1: warning: the bundle is named 'b', but this makes warn.res: what looks for \
b.res won't find it
warn.txt:1:7: warning: this backslash is a character here, and an escape for genrb
warn.txt:1:11: warning: duplicate key 'a', first at column 3; genrb refuses that
warn.txt:1:29: warning: this string is an item of its own here; genrb joins it to the \
one before"
rm alone/warn.res
told 1 '' "$warned
warn.txt: no file is written, since this has warnings" compile --strict warn.txt -d alone
holds alone ''
told 1 '' "$warned
warn.txt: no file is written, since this has warnings" compile --quiet --strict warn.txt -d alone
holds alone ''
printf 'bare{k{v}}' > bare.txt
told 0 '' '' compile --strict names.txt bare.txt -d alone
holds alone 'bare.res names.res'
told 0 '' '' compile --strict --icu bare.txt -d alone
rm alone/*

# the warnings of ICU's form: of strings that are joined over a line's end to a member of an array,
# which a comma, a group before or `:array` shows; those that are all of a group are one string, and
# so are those in one line; unquoted ones are joined as pieces are, a comment between them or not
cat > joined.txt <<'END'
joined{
  one{"a"
    "b"}
  two{"a\"" // "x"
    "b", "c" "d",
    "e" /* "
    */ "f"
    "g" }
  three:array{ "a"
    "b" }
  four{ {x} "a"
    "b" {y}
    "c
 d" "e" }
  "five"{
    "six"{x}
  }
  six{one
    two, three
    four
    five}
  seven:array{ a/b // c
    (d) :int{1} é
    [f] {g} }
  eight{ {x} one two
    three four
    five }
  nine{one
    two}
  ten{ "x",
    one two, 0
    1 }
}
END
joined="joined.txt:5:5: warning: this string is joined to the one before; a comma would part them
joined.txt:7:8: warning: this string is joined to the one before; a comma would part them
joined.txt:10:5: warning: this string is joined to the one before; a comma would part them
joined.txt:12:5: warning: this string is joined to the one before; a comma would part them
joined.txt:19:5: warning: this string is joined to the one before; a comma would part them
joined.txt:20:5: warning: this string is joined to the one before; a comma would part them
joined.txt:23:5: warning: this string is joined to the one before; a comma would part them
joined.txt:24:5: warning: this string is joined to the one before; a comma would part them
joined.txt:26:5: warning: this string is joined to the one before; a comma would part them
joined.txt:32:5: warning: this string is joined to the one before; a comma would part them"
told 0 '' "$joined" compile --icu joined.txt
# of an integer that 28 bits don't hold, with or without a sign: what is kept
cat > bits.txt <<'END'
bits{
  a:int{300000000} b:integer{ /* : */ -200000000 } c:int{+268435456}
  d:int{268435455} e:int{-134217728} f:intvector{300000000} g{300000000}
}
END
bits="bits.txt:2:9: warning: this number has more than 28 bits; 31564544 is kept
bits.txt:2:39: warning: this number has more than 28 bits; 68435456 is kept
bits.txt:2:58: warning: this number has more than 28 bits; 0 is kept"
told 0 '' "$bits" compile --icu bits.txt
# of one digit in braces with which a group begins, or behind the one word before it
cat > braces.txt <<'END'
braces{
  a{{0} of {1}} b{"{0} of {1}"} c{ { 2 }, {3}} d{x{0} y{1}}
  e:array{{0}} f{{00}} g{{"0"}} h{{0, 1}}
  i{Hello {0}} j{k{Hello { 1 }}} l:table{x{0}} m{"x"{0}} n{x{00}} o{x{"0"}} q{x{0, 1}}
  r{x{0} y{z}} s{x:string{0}}
  t{(b) {0}} u{{(5)} x} v{{0/} of} w{5/ {0}} x{{*5}} y{é} z{{0 1} of}
}
END
of_its_own='warning: this group is a string of its own; braces that are meant need quotes'
braces="braces.txt:2:5: $of_its_own
braces.txt:2:36: $of_its_own
braces.txt:4:11: $of_its_own
braces.txt:4:26: $of_its_own
braces.txt:6:9: $of_its_own
braces.txt:6:41: $of_its_own"
told 0 '' "$braces" compile --icu braces.txt
printf 'root:table{x{0}}' > root.txt
told 0 '' '' compile --icu root.txt
printf '"root"{x{0}}' > root.txt
told 0 '' '' compile --icu root.txt
mkdir icu_texts
cp joined.txt bits.txt icu_texts
told 1 '' "$bits
bits.txt: no file is written, since this has warnings" compile --icu --strict bits.txt -d alone
holds alone ''
told 0 '' "$bits" compile --icu --check bits.txt -d alone
told 0 '' '' compile --icu --quiet --check bits.txt joined.txt braces.txt -d alone
told 1 '' "$bits
bits.txt: no file is written, since this has warnings" \
  compile --icu --quiet --strict --check bits.txt -d alone
told 0 '' "$bits" compile --icu --by-name bits.txt -d alone
told 0 '' "${bits//bits.txt/icu_texts/bits.txt}
${joined//joined.txt/icu_texts/joined.txt}" compile --icu icu_texts -d alone
printf 'long{k{"%0300d"}}' 0 > long.txt
told 0 '' 'long.txt: its warnings may take more than the limit: none is looked for' \
  compile --icu --limit 3000 long.txt
rm -r alone/* icu_texts
told 0 '' "$warned" compile --check warn.txt -d alone
told 1 '' "$warned
warn.txt: no file is written, since this has warnings" compile --check --strict warn.txt -d alone
told 1 '' $'open.txt:1:2: expected \'}\' before the text ends inside this\nb{\n ^' \
  compile --check --quiet open.txt names.txt -d alone
told 2 '' 'two/a.txt: its file alone/a.res is that of one/a.txt too' \
  compile --check one/a.txt two/a.txt -d alone
input=names.txt
told 0 '' '' compile --check -
input=
holds alone ''
{ printf 'many{l:array{'; printf '"s" %.0s' {1..23}; printf '}}'; } > many.txt
(exec -a resb "$program" compile many.txt) 2> err
[ "$(grep -c warning: err)" = 20 ] && [ "$(tail -n 1 err)" = 'many.txt: 2 more warnings' ] \
  && passed=$((passed + 1)) || { failed=$((failed + 1)); cat err; }

# the bundle's name for the file, in either form, beside the text or in a folder
printf 'de{a{"x"}}' > alone/text.txt
told 0 '' '' compile --by-name alone/text.txt
holds alone 'de.res text.txt'
printf '\357\273\277// ICU\n"de_AT" {a{"x"}}' > alone/icu.txt
told 0 '' '' compile --icu --by-name alone/icu.txt -d alone
holds alone 'de.res de_AT.res icu.txt text.txt'
told 0 'x' '' get alone/de_AT.res a
input=alone/text.txt
told 0 '' '' compile --by-name -
input=
same de.res alone/de.res
printf '"../de"{a{"x"}}' > slash.txt
told 2 '' 'slash.txt: the name of its bundle is no name of a file' compile --by-name slash.txt
printf 'slash{a{"y"}}' > other.txt
cp alone/text.txt twin.txt
told 2 '' 'twin.txt: its file alone/de.res is that of alone/text.txt too' \
  compile --by-name alone/text.txt twin.txt -d alone
rm twin.txt
told 0 '' '' compile --by-name alone/text.txt ./alone/text.txt
printf '"slash.txt.res/../slash"{}' > up.txt
told 2 '' 'up.txt: the name of its bundle is no name of a file' compile --by-name up.txt
told 1 '' $'open.txt:1:2: expected \'}\' before the text ends inside this\nb{\n ^' \
  compile --by-name open.txt
told 2 '' "error: the argument '--output <OUT>' cannot be used with '--by-name'

Usage: resb compile --output <OUT> <FILE>...

For more information, try '--help'." compile names.txt -o a.res --by-name

# folders: the files right inside them, in the order of their names, without hidden ones
mkdir -p texts/sub.txt texts/sub nothing shared
printf 'b{' > texts/b.txt
printf 'a{k{"1"}}' > texts/a.txt
printf 'c{k{"3"}}' > texts/c.txt
printf 'b{' > texts/.hidden.txt
told 1 '' $'texts/b.txt:1:2: expected \'}\' before the text ends inside this\nb{\n ^' compile texts
holds texts 'a.res a.txt b.txt c.res c.txt sub sub.txt'
told 2 'texts/a.res: 2 resources, format 2.0, fallback, largest table 1
texts/c.res: 2 resources, format 2.0, fallback, largest table 1
small.res: 2 resources, format 2.0, fallback, largest table 1' \
  'nothing: this folder has no .res file' check texts nothing small.res
told 2 '' 'nothing: this folder has no .txt file' compile nothing
told 2 '' 'texts: this is a folder' compile texts -o x.res
told 2 '' 'two/a.txt: its file into/a.res is that of one/a.txt too' \
  compile one two --check -d into
told 2 '' 'texts: this is a folder' dump texts

# check as JSON: what the line says, or the kind of the cause and what is said of it
told 1 '{"path":"names.res","ok":true,"resources":8,"format":"2.0","order":"little-endian","fallback":true,'\
'"largest_table":5,"pool_bundle":false,"over":null}
{"path":"broken.res","ok":false,"kind":"invalid data","message":"Invalid resource bundle data: '\
'input is too short to contain file header"}
{"path":"one.res","ok":false,"kind":"unsupported format","message":"Unsupported resource bundle '\
'format: format version 1.0 is not supported"}
{"path":"off.res","ok":true,"resources":2,"format":"2.0","order":"little-endian","fallback":false,"largest_table":1,'\
'"pool_bundle":false,"over":null}' '' check --json names.res broken.res one.res off.res
told 2 '{"path":"none\"\n.res","ok":false,"kind":"input","message":"no such file"}
{"path":"nothing","ok":false,"kind":"input","message":"this folder has no .res file"}
{"path":"p.dat","ok":false,"kind":"package","message":"this is a package of ICU'"'"'s data: '\
'name an item inside it (resb list)"}
{"path":"p.dat/b.res","ok":false,"kind":"package","message":"the package has no item of this '\
'name"}' '' check --json $'none"\n.res' nothing p.dat p.dat/b.res
python3 -c "
import sys
sys.path.insert(0, '$top/tests')
import pools
for name, words in (('shared/pool', pools.POOL3), ('shared/a', pools.A3), ('a', pools.A3),
                    ('other', pools.POOL3.replace('e31610fa', 'e31610fb'))):
    open(f'{name}.res', 'wb').write(pools.file(words))
"
told 1 '{"path":"shared/a.res","ok":true,"resources":3,"format":"3.0","order":"little-endian","fallback":true,'\
'"largest_table":2,"pool_bundle":false,"over":"shared/pool.res"}
{"path":"shared/pool.res","ok":true,"resources":1,"format":"3.0","order":"little-endian","fallback":false,'\
'"largest_table":0,"pool_bundle":true,"over":null}
{"path":"a.res","ok":false,"kind":"pool bundle","message":"this file uses a pool bundle, and '\
'there is no pool.res beside it; name one by --pool"}' '' check --json shared a.res
mkdir pool.res
told 2 '' 'pool.res: a pool bundle is read from a file alone' check a.res
rmdir pool.res
mkfifo pool.res
told 2 '' 'pool.res: a pool bundle is read from a file alone' dump a.res
rm pool.res
told 1 '{"path":"a.res","ok":false,"kind":"pool bundle","message":"Invalid resource bundle data: '\
'pool bundle has another checksum: other.res"}' '' check --json a.res --pool other.res
told 2 '{"path":"a.res","ok":false,"kind":"pool bundle","message":"its pool bundle isn'"'"'t '\
'read"}' 'none.res: no such file' check --json a.res --pool none.res

# a file whose pool bundle isn't there, or is another one: what its head tells
contents=$(python3 -c "
hash = 0xcbf29ce484222325
for byte in open('a.res', 'rb').read():
    hash = (hash ^ byte) * 0x100000001b3 % 2 ** 64
print(f'{hash:016x}')")
note="// This file's keys and strings are in a pool bundle that is not here.
// format 3.0, fallback, largest table 2, 84 bytes, contents $contents
// the pool bundle's checksum: e31610fa"
told 0 "$note" '' dump --lenient a.res
told 0 "$note" '' dump --lenient --icu --pool other.res a.res
told 0 $'a{\n    alpha{"one two three"}\n    beta{"x"}\n}' '' dump --lenient shared/a.res
told 2 '' 'none.res: no such file' dump --lenient --pool none.res a.res
mkdir noted
told 0 '' '' dump --lenient a.res small.res -d noted
[ "$(cat noted/a.txt)" = "$note" ] && passed=$((passed + 1)) || { failed=$((failed + 1)); cat noted/a.txt; }

# several paths, in their order; keys with a slash or a tilde; a slash before all of them
printf 'k{"a/b":table{"~":table{"~1"{x} "~0"{y} "0"{z}} 1{s}} l:array{"p","q"} "m~n"{t}}' > key.txt
told 0 '' '' compile key.txt -o key.res
told 0 $'x\ny\nz\nz\ns\nt\nt\nx\nt' '' get key.res a~1b/~/~01 a~1b/~0/~00 a~1b/~/0 a~1b/~0/0 \
  a~1b/1 m~n m~0n /a~1b/~/~01 /m~n
told 1 $'q\n["p","q"]\np' $'key.res: nothing stands at l/2\nkey.res: nothing stands at a/b/1' \
  get key.res l/1 l/2 l a/b/1 l/0
told 1 $'hello\nc' 'names.res: nothing stands at nowhere' \
  get --check names.res hi nowhere list/1
# the tree of a file that has none is asked for once, and what needs none is shown
told 1 $'hello\n-5' "$outside" get cut.res hi list list n
told 1 '' "$outside" get --check cut.res hi n
mkdir next
sed 's/{z}/{"w"}/' key.txt > next/key.txt
told 0 '' '' compile next/key.txt -o next/key.res
told 1 '~ a~1b/~/0 "z" -> "w"' '' diff key.res next/key.res
told 1 '{"path":"a~1b/~/0","old":"z","new":"w"}' '' diff --json key.res next/key.res
told 0 'w' '' get next/key.res a~1b/~/0

# the texts of several files in a folder
mkdir shown
told 0 '' '' dump small.res key.res -d shown
holds shown 'key.txt small.txt'
told 0 '' '' compile shown/small.txt
same small.res shown/small.res
told 1 '' "path.res: this has no text, since a string holds a '\"' at zones/Pole/list/1; \
its JSON is written
broken.res: Invalid resource bundle data: input is too short to contain file header
six.res: this has no text, since the root is no table; its JSON is written" \
  dump path.res broken.res six.res -d shown
holds shown 'key.txt path.json six.json small.res small.txt'
told 0 '' '' dump --json small.res -d shown
[ "$(cat shown/small.json)" = '{"k":"v"}' ] && passed=$((passed + 1)) || failed=$((failed + 1))
told 2 '' 'shown/small.res: its file shown/small.txt is that of small.res too' \
  dump small.res shown/small.res -d shown
told 2 '' 'nowhere: no such folder' dump small.res -d nowhere
told 2 '' 'resb: the texts of several files go to a folder, named by --directory' \
  dump small.res key.res
told 2 '' 'resb: --directory is the name of a folder' dump small.res -d ''
