# shellcheck shell=bash
# The commands `genrb` and `derb`, by the words of ICU's tools and the statuses of its compiler.
# It is read by tests/resb.sh, behind the parts that stand before it there.
mkdir -p source/sub built
printf 'de_AT{ hi{"Servus"} n:int{3} }' > source/sub/first.txt
printf '\357\273\277root{ hi{"Hello"} list{ "a", "b" } }' > source/root.txt
printf 'broken{ a{ "x" ' > source/broken.txt
told 0 '' '' genrb -q -k -R -C -i elsewhere -e utf-8 --formatVersion 2 -s source -d built \
  sub/first.txt root.txt
holds built 'de_AT.res root.res'
told 0 '' '' compile --icu source/root.txt -o wanted.res
same built/root.res wanted.res
# the current folder stands for one that isn't named
(cd source && exec -a genrb "$program" --quiet root.txt) && same source/root.res wanted.res
(exec -a genrb "$program" -q -s source -d built broken.txt) 2> /dev/null
[ $? = 3 ] && passed=$((passed + 1)) || { failed=$((failed + 1)); echo 'genrb: a broken text'; }
# help and mistakes name the program as it was called
(exec -a genrb "$program" --help) > help.txt
grep -q '^Usage: genrb \[OPTIONS\] <FILE>...$' help.txt && grep -q '^Example: genrb -s' help.txt \
  && passed=$((passed + 1)) || { failed=$((failed + 1)); cat help.txt; }
(exec -a genrb "$program" --unknown) 2> err
[ $? = 1 ] && grep -q '^Usage: genrb ' err \
  && passed=$((passed + 1)) || { failed=$((failed + 1)); cat err; }
(exec -a resb "$program" genrb --help) > help.txt
grep -q '^Usage: resb genrb \[OPTIONS\] <FILE>...$' help.txt \
  && passed=$((passed + 1)) || { failed=$((failed + 1)); cat help.txt; }
told 3 '' "source/broken.txt:1:10: expected '}', a comma, '{' or a type before the text ends \
inside this
broken{ a{ \"x\" 
         ^" genrb -s source -d built broken.txt
told 4 '' 'source/nope.txt: no such file' genrb -s source -d built nope.txt
told 4 '' 'nowhere: no such folder' genrb -s source -d nowhere root.txt
told 4 '' 'source/root.txt: this is no folder' genrb -s source -d source/root.txt root.txt
told 1 '' "resb: --write-java isn't done here; for Java take --big-endian, for texts resb dump" \
  genrb -j -s source root.txt
told 1 '' "resb: --bundle-name goes with --write-java, which isn't done here" \
  genrb -b x -s source root.txt
told 4 '' 'x/root.txt: no such file' genrb --filterDir x -s source root.txt
told 1 '' 'resb: --encoding is UTF-8, UTF-16, UTF-32, ISO-8859-1 or windows-1252' \
  genrb -e latin2 -s source root.txt
told 1 '' 'resb: --formatVersion is 2 or 3' genrb --formatVersion 1 -s source root.txt
# a file of another version, with a notice in its header, and from texts in other encodings
mkdir -p other
told 0 '' '' genrb -q --formatVersion 3 -s source -d other root.txt
[ "$(cmp -l built/root.res other/root.res | xargs)" = '17 2 3' ] \
  && passed=$((passed + 1)) || { failed=$((failed + 1)); echo 'genrb: a file of 3.0'; }
told 0 'Processing file "source/root.txt"
 parsing table (null) at line 1 
 resource hi at line 1 
 string hi at line 1 
 resource list at line 1 
 array list at line 1 ' '' genrb -v -c -s source -d other root.txt
[ "$(head -c 2 other/root.res | od -An -tx1)" = ' 90 00' ] \
  && [ "$(tail -c +33 built/root.res | cksum)" = "$(tail -c +145 other/root.res | cksum)" ] \
  && [ "$(head -c 143 other/root.res | tail -c +26 | head -c 13)" = 'Copyright (C)' ] \
  && passed=$((passed + 1)) || { failed=$((failed + 1)); echo 'genrb: a notice'; }
told 0 'other/root.res: 5 resources, format 2.0, fallback, largest table 2' '' \
  check other/root.res
for encoding in UTF-16LE UTF-16BE UTF-32LE UTF-32BE ISO-8859-1 windows-1252; do
  printf 'root{ hi{"Hell\303\266"} }' | iconv -f UTF-8 -t "$encoding" > source/coded.txt
  told 0 '' '' genrb -q -e "${encoding,,}" -s source -d other coded.txt
  told 0 $'root{\n    hi{"Hell\u00f6"}\n}' '' derb -c -s other root
done
rm source/coded.txt
# each group with its line, as ICU's genrb 72.1 prints them
printf '// c\ntrace:table(nofallback)\n\n{\n a\n :\n table\n { b:string{"x"\n"y"} }\n s\n  {\n  "x"\n "y}" } // {\n list{ "x",\n {"z"},\n :int\n {4} , { { "k" } , {p{"q"}} } }\n e{} al:alias\n {"/a"} bin:bin\n{ "00" } v:intvector{ 1,\n2}\n collations{ default{"x"} al:alias{"/LOCALE"} }\n}\n' > source/trace.txt
told 0 'Processing file "source/trace.txt"
 parsing table (null) at line 4 
 resource a at line 6 
 table a at line 8 
 parsing table a at line 8 
 resource b at line 8 
 string b at line 8 
 resource s at line 11 
 string s at line 11 
 resource list at line 14 
 array list at line 14 
 resource (null) at line 15 
 string (null) at line 15 
 resource (null) at line 16 
 integer (null) at line 17 
 resource (null) at line 17 
 array (null) at line 17 
 resource (null) at line 17 
 string (null) at line 17 
 resource (null) at line 17 
 table (null) at line 17 
 parsing table (null) at line 17 
 resource p at line 17 
 string p at line 17 
 resource e at line 18 
 array e at line 18 
 resource al at line 18 
 alias al at line 19 
 resource bin at line 19 
 binary bin at line 20 
 resource v at line 20 
 vector v at line 20 
 resource collations at line 22 
 collation elements collations at line 22 
 resource default at line 22 
 string default at line 22 
 resource al at line 22 
 alias al at line 22 ' '' genrb -v -s source -d other trace.txt
rm source/trace.txt other/trace.res
# the same text twice is compiled once; a folder is no text
told 0 '' '' genrb -q -s source -d other root.txt ./root.txt
told 3 '' 'source/sub: this is a folder' genrb -q -s source -d other sub
# without a word nothing is made of the texts that are right where one isn't
told 3 '' "source/broken.txt:1:10: expected '}', a comma, '{' or a type before the text ends \
inside this
broken{ a{ \"x\" 
         ^
genrb: no pool bundle is written, since a text is refused" \
  genrb -q -s source -d other --writePoolBundle -k broken.txt root.txt
holds other 'root.res'
told 0 '' "source/broken.txt:1:10: expected '}', a comma, '{' or a type before the text ends \
inside this
broken{ a{ \"x\" 
         ^" genrb -q -s source -d other --writePoolBundle --keep-going broken.txt root.txt
holds other 'pool.res root.res'
told 1 '' 'nowhere/pool.res: no such file' \
  genrb -q -s source -d other --usePoolBundle nowhere root.txt
# the pool bundle that ICU 72's compiler writes for texts without a key and a string
printf 'none{}' > source/none.txt
told 0 '' '' genrb -q -s source -d built --writePoolBundle -k none.txt
printf '%b' '\x20\x00\xda\x27\x14\x00\x00\x00\x00\x00\x02\x00\x52\x65\x73\x42\x02\x00\x00\x00' \
  '\x01\x04\x00\x00\x00\x00\x00\x00\x00\x00\x00\x00\x00\x00\x00\x20\x08\x00\x00\x00' \
  '\x09\x00\x00\x00\x0a\x00\x00\x00\x0a\x00\x00\x00\x00\x00\x00\x00\x03\x00\x00\x00' \
  '\x0a\x00\x00\x00\x95\x1e\xeb\x62\x00\x00\xaa\xaa' > wanted.res
same built/pool.res wanted.res
told 0 'built/pool.res: 1 resources, format 2.0, no fallback, largest table 0, pool bundle' '' \
  check built/pool.res
# words VERSION WORD..: a file of a format version of these words in hex digits behind its header
words() {
  local word
  printf '%b' '\x20\x00\xda\x27\x14\x00\x00\x00\x00\x00\x02\x00ResB' "\\x0$1" \
    '\x00\x00\x00\x01\x04\x00\x00\x00\x00\x00\x00\x00\x00\x00\x00'
  shift
  for word in "$@"; do
    word=$(printf '%08x' "0x$word")
    printf '%b' "\\x${word:6:2}\\x${word:4:2}\\x${word:2:2}\\x${word:0:2}"
  done
}
# what two texts share, and files over it, as ICU 72's compiler writes them
mkdir -p shared over
printf 'a{alpha{"one two three"}beta{"x"}}' > source/a.txt
printf 'b{alpha{"one two three"}gamma{"three"}}' > source/b.txt
printf 'c{alpha{"two three"}delta:array{"x","","three"}}' > source/c.txt
told 0 '' '' genrb -q -s source -d built --writePoolBundle shared a.txt b.txt
words 3 20000000 8 e 16 16 0 3 16 e31610fa 68706c61 65620061 67006174 616d6d61 aaaaaa00 6f0000 \
  65006e 740020 6f0077 740020 720068 650065 aaaa0000 > wanted.res
same shared/pool.res wanted.res
told 0 '' '' genrb -q -s source -d over --usePoolBundle shared a.txt b.txt c.txt
words 3 50000003 208 9 d d 2 20004 d e31610fa 780000 20000 60000 30001 > wanted.res
same over/a.res wanted.res
words 3 50000001 a08 9 c c 2 a0004 c e31610fa 20000 b0000 90001 > wanted.res
same over/b.res wanted.res
words 3 2000000f a08 b 13 13 2 a0004 f e31610fa 746c6564 aaaa0061 780000 30000 b aaaa0009 2c0002 \
  aaaa0024 60000005 90000003 > wanted.res
same over/c.res wanted.res
told 0 'three' '' get --pool shared/pool.res over/c.res delta/2
told 0 '' '' compile --icu source/c.txt -o one.res --pool shared/pool.res
same one.res wanted.res
told 0 '' '' compile --icu source/c.txt -o two.res --pool shared/pool.res --limit 100000
same two.res one.res
told 1 '' 'source/a.txt: reading this text takes more than the limit of 120 bytes' \
  compile source/a.txt --pool shared/pool.res --limit 120
told 1 '' 'source/pool.res: no such file' genrb -q -s source -d over --usePoolBundle -k a.txt
told 1 '' 'over/a.res: Invalid resource bundle data: file is not a pool bundle' \
  compile source/a.txt --pool over/a.res
told 2 '' 'resb: a pool bundle is read from a file alone' compile source/a.txt --pool -
# rules leave parts out of the files, and of the pool bundle, as those of ICU 72's compiler do
mkdir -p rules/sub
printf 'de{ a{ x{"1"} y{"2"} } b{"s"} c{"p","q"} }' > source/de.txt
printf '# one entry of a, and what is no table\n\n-/\n+/a/x\n+/c/0\n' > rules/de.txt
told 0 '' '' genrb -q -s source -d built --filterDir rules de.txt
told 0 '{"a":{"x":"1"},"c":["p","q"]}' '' dump --json built/de.res
printf -- '-/a/*\n+/a/y\n-/c\n' > rules/de.txt
told 0 '' '' genrb -q -s source -d built --filterDir rules --writePoolBundle -k de.txt
told 0 '{"a":{"y":"2"},"b":"s"}' '' dump --json built/de.res
told 0 '' '' genrb -q -s source -d built --filterDir rules --usePoolBundle built de.txt
told 0 '{"a":{"y":"2"},"b":"s"}' '' dump --json built/de.res
printf -- '-/hi\n' > rules/sub/first.txt
told 0 '' '' genrb -q -s source -d built --filterDir rules sub/first.txt
told 0 '{"n":3}' '' dump --json built/de_AT.res
told 4 '' 'rules/root.txt: no such file' genrb -q -s source -d built --filterDir rules root.txt
printf -- '-/a\nb\n' > rules/root.txt
told 9 '' 'rules/root.txt: line 2: a rule begins with + or -' \
  genrb -q -s source -d built --filterDir rules root.txt
# a rule of 1,000 pieces, and one of 1,401, at a text of 1,500 levels take little stack: of each
# ICU's compiler makes the file of this checksum
python3 -c "
levels = 1500
open('source/deep.txt', 'w').write('deep{' + 'k{' * levels + 'x{\"y\"}' + '}' * levels + '}')
open('first.txt', 'w').write('-' + '/k' * 1000 + '\n')
open('second.txt', 'w').write('-' + '/k' * 1400 + '/*\n')
"
for sum in 'first 3294731706 8064' 'second 494146341 11272'; do
  mv "${sum%% *}.txt" rules/deep.txt
  stack=256 told 0 '' '' genrb -q --compact -s source -d built --filterDir rules deep.txt
  [ "${sum%% *} $(cksum < built/deep.res)" = "$sum" ] \
    && passed=$((passed + 1)) || { failed=$((failed + 1)); cksum built/deep.res; }
done
# rules of collation: refused, as they stand by the words of ICU 72's compiler, or with the binary
# form that a file has for them
# rules of several pieces, and private ones
printf 'de{ collations{ standard{ Version{"1"} Sequence{"&a" "<b"} } %s } }' \
  'private-x{ Sequence{"&c<d"} }' > source/coll.txt
told 3 '' "source/coll.txt: the rules of collation 'standard' have no binary form, which ICU's \
genrb makes; see --collation" genrb -q -s source -d built coll.txt
told 0 '' '' genrb -q -C -s source -d built coll.txt
words 2 20000023 7 14 25 25 2 0 1f 6c6c6f63 6f697461 7300736e 646e6174 647261 73726556 6e6f69 \
  75716553 65636e65 69727000 65746176 aa00782d 310000 260000 3c0061 62 630026 64003c 10000 8003c \
  3c0002 30034 aaaa0001 450002 aaaa002b 5000000d 50000010 200001 2000001f > wanted.res
same built/de.res wanted.res
told 0 '' "source/coll.txt: the rules of collation 'standard' have no binary form: ICU opens no \
collator by them" compile --icu --no-binary-collation source/coll.txt -o one.res
same one.res wanted.res
told 1 '' "source/coll.txt: the rules of collation 'standard' have no binary form: ICU opens no \
collator by them
source/coll.txt: no file is written, since this has warnings" \
  compile --icu --no-binary-collation --strict source/coll.txt -o one.res
told 3 '' "built/de.res: the rules of collation 'standard' have no binary form here" \
  genrb -q -s source -d built --collation built coll.txt
mkdir -p forms
printf 'de{ collations{ standard{ %%%%CollationBin:bin{00ff} x{"1"} } } }' > forms.txt
told 0 '' '' compile --icu forms.txt -o forms/de.res
told 0 '' '' genrb -q -s source -d built --collation forms coll.txt
told 0 '{"collations":{"private-x":{"Sequence":"&c<d"},"standard":{'\
'"%%CollationBin":{"binary":"00ff"},"Sequence":"&a<b","Version":"1"}}}' '' dump --json built/de.res
# without the rules themselves
told 0 '' '' genrb -q -R --collation forms -s source -d built coll.txt
told 0 '{"collations":{"private-x":{},"standard":{"%%CollationBin":{"binary":"00ff"},'\
'"Version":"1"}}}' '' dump --json built/de.res
told 0 '' '' genrb -q -R -C -s source -d built coll.txt
told 0 '{"collations":{"private-x":{},"standard":{"Version":"1"}}}' '' dump --json built/de.res
# a file with other rules
printf 'de{ collations{ standard{ Sequence{"&a<c"} %%%%CollationBin:bin{00ff} } } }' > other.txt
mkdir -p other
told 0 '' '' compile --icu other.txt -o other/de.res
told 3 '' "other/de.res: the rules of collation 'standard' have no binary form here: the file's is \
of other rules" genrb -q -s source -d built --collation other coll.txt
# what rules leave out goes once its binary form is there
printf -- '-/collations/standard/Sequence\n' > rules/coll.txt
told 0 '' '' genrb -q -s source -d built --collation forms --filterDir rules coll.txt
told 0 '{"collations":{"private-x":{"Sequence":"&c<d"},"standard":{'\
'"%%CollationBin":{"binary":"00ff"},"Version":"1"}}}' '' dump --json built/de.res
# and is needed, but where rules leave it out itself
told 3 '' "source/coll.txt: the rules of collation 'standard' have no binary form, which ICU's \
genrb makes; see --collation" genrb -q -s source -d built --filterDir rules coll.txt
printf -- '-/collations/standard/%%%%CollationBin\n' > rules/coll.txt
for words in '' '--collation forms' '--collation nowhere'; do
  told 0 '' '' genrb -q -s source -d built $words --filterDir rules coll.txt
  told 0 '{"collations":{"private-x":{"Sequence":"&c<d"},"standard":{'\
'"Sequence":"&a<b","Version":"1"}}}' '' dump --json built/de.res
done
# a type that the file with binary forms hasn't at all: refused, unless rules leave it out here
printf 'de{ collations{ private-y{ x{"1"} } } }' > none.txt
mkdir -p lacking
told 0 '' '' compile --icu none.txt -o lacking/de.res
told 3 '' "lacking/de.res: the rules of collation 'standard' have no binary form here" \
  genrb -q -s source -d built --collation lacking coll.txt
printf -- '-/collations/standard\n' > rules/coll.txt
told 0 '' '' genrb -q -s source -d built --collation lacking --filterDir rules coll.txt
told 0 '{"collations":{"private-x":{"Sequence":"&c<d"}}}' '' dump --json built/de.res
told 0 '' '' genrb -q -s source -d built --filterDir rules coll.txt
told 0 '{"collations":{"private-x":{"Sequence":"&c<d"}}}' '' dump --json built/de.res
# texts that name other files: what ICU 72's compiler makes of them
printf 'a "b" \\ c\n' > source/rules.txt
printf '\001\002' > source/data.bin
printf "# a comment\n a > \\\\u0062 ; # more\n 'c # d' > e;\n" > source/trans.txt
printf 'taking{ b{ x:process(dependency){"li" "ne.brk"} } i:include{rules.txt}\n %s %s }' \
  'd:import{"data.bin"}' 'r:process(transliterator){"trans.txt"}' > source/taking.txt
told 0 '' \
  'source/taking.txt:1:13: warning: there is no file built/line.brk, on which this depends' \
  genrb -s source -d built taking.txt
told 0 '{"%%DEPENDENCY":["line.brk"],"b":{"x":"line.brk"},"d":{"binary":"0102"},'\
'"i":"a \"b\" \\ c\n","r":"a > b ;'"'c # d'"' > e;"}' '' dump --json built/taking.res
told 0 '' '' compile --icu source/taking.txt -o one.res
same built/taking.res one.res
printf 'lacks{ a:include{"rules.txt"}\n b{ c:import{none.bin} } }' > source/lacks.txt
told 4 '' 'source/lacks.txt:2:6: this takes in source/none.bin: no such file' \
  genrb -q -s source -d built lacks.txt
printf '\377' > source/bytes.bin
printf 'no{ a:include{bytes.bin} }' > source/bytes.txt
told 3 '' 'source/bytes.txt:1:6: this takes in the text of source/bytes.bin, which is no UTF-8' \
  genrb -q -s source -d built bytes.txt
printf '\\u00g0 and more' > source/trans.txt
told 3 '' 'source/taking.txt:2:24: this takes in the rules of source/trans.txt, where a \u '\
'says no character' \
  genrb -q -s source -d built taking.txt
# what the reader refuses is told where it stands in the text's own file
printf 'place{ a:include{"rules.txt"} b }' > source/place.txt
told 1 '' "source/place.txt:1:33: expected '{' or a type
place{ a:include{\"rules.txt\"} b }
                                ^" compile --icu source/place.txt
# a text that takes itself in, many times
{
  printf 'self{'
  for number in $(seq 400); do printf 'k%s:include{"self.txt"}' "$number"; done
  printf '}'
} > source/self.txt
told 1 '' "source/self.txt:1:414: this takes in source/self.txt, so that the text may have more \
than 1048576 bytes" compile --icu --limit 1000 source/self.txt
# the words of ICU's derb
mkdir -p printed
told 0 '' '' derb -A -s built -d printed root
told 0 "$(cat printed/root.txt)" '' dump --icu built/root.res
told 0 "$(cat printed/root.txt)" '' derb -c -A -i elsewhere -e utf-8 -s built root.res
told 0 $'\ufeff'"$(cat printed/root.txt)" '' derb -c --bom -s built root.res
told 1 '' "resb: --truncate isn't done here: it would leave data out of a text" \
  derb -c -t 20 -s built root.res
told 1 '' "resb: --sourcedir is a folder: the data that are built into ICU aren't read" \
  derb -c -s - root.res
(cd built && exec -a derb "$program" -d ../printed de_AT.res none)
holds printed 'de_AT.txt none.txt root.txt'
told 2 '' 'built/nope.res: no such file' derb -s built nope
told 1 '' 'resb: --encoding is UTF-8' derb -e latin1 -s built root
(exec -a derb "$program" '-?') > help.txt
grep -q '^Usage: derb \[OPTIONS\] <FILE>...$' help.txt \
  && passed=$((passed + 1)) || { failed=$((failed + 1)); cat help.txt; }
# genrb's bytes: `b` lies at the end of `ab`, and the empty string has the word 0
printf 'b{ab{"x"} b{"y"} e{""} t:array{"",:int{1}}}' > source/b.txt
words 2 20000010 7 a 17 17 4 0 d 65006261 aa007400 780000 790000 aaaa0000 2 0 70000001 200004 \
  230021 aaaa0025 60000001 60000003 0 8000000d > wanted.res
told 0 '' '' genrb -q -s source -d built --compact b.txt
same built/b.res wanted.res
told 0 '' '' compile --icu --compact --limit 100000 source/b.txt -o one.res
same one.res wanted.res
told 0 '{"ab":"x","b":"y","e":"","t":["",1]}' '' dump --json built/b.res
told 2 '' "resb: --compact is for texts in ICU's own form, which --icu says" \
  compile --compact source/b.txt
# over pool bundles too: keys lie at the ends of the pool's, or of the file's own
printf 'p{xab{"one two three"} ab{"x"} c{"two three"}}' > source/p.txt
printf 'q{yab{"one two three"} b{"three"} e{""} zz{"abcdefghijklmnopqr"}}' > source/q.txt
printf 'r{b{"three"} ab{"x"} cab{"e two three"} kcab{"own"} e{""} a{"wn"} zab{"one two three"}}' \
  > source/r.txt
told 0 '' '' genrb -q -s source -d shared --compact --writePoolBundle shared p.txt q.txt
words 3 20000000 8 d 15 15 0 3 15 5440b0b8 626178 61790063 650062 aa007a7a 6f0000 65006e 740020 \
  6f0077 740020 720068 650065 aaaa0000 > wanted.res
same shared/pool.res wanted.res
told 0 '' '' genrb -q -s source -d over --compact --usePoolBundle shared p.txt r.txt
words 3 50000003 608 9 e e 3 60004 e 5440b0b8 780000 30000 40007 70000 10005 > wanted.res
same over/p.res wanted.res
words 3 50000007 a08 c 17 17 7 a0004 17 5440b0b8 6261636b 7a006100 aa006261 780000 6f0000 6e0077 \
  70000 2c0029 25002d 24003a e002b 9000b 3 1000d > wanted.res
same over/r.res wanted.res
# its order of keys: `%%DEPENDENCY` comes right before the key of the first dependency
printf 'order{ a{"v"} b{ c:process(dependency){"z"} d{"w"} } e:process(dependency){"y"} }' \
  > source/order.txt
words 2 20000017 7 e 1e 1e 4 0 17 620061 45442525 444e4550 59434e45 64006300 aa006500 790000 \
  7a0000 760000 770000 20000 10003 310002 30033 aaaa0007 240004 220020 aaaa0035 90000009 \
  60000005 5000000c 60000001 > wanted.res
told 0 '' '' genrb -q -s source -d built --compact order.txt
same built/order.res wanted.res
# but an array of that name which a text has itself stands in its turn
printf 'own{ a{"f.brk"} %%%%DEPENDENCY:array{"f.brk"} }' > source/own.txt
words 2 20000011 7 c 15 15 2 0 11 25250061 45504544 4e45444e aa005943 660000 62002e 6b0072 10000 \
  aaaa0001 220002 aaaa0020 90000007 60000001 > wanted.res
told 0 '' '' genrb -q -s source -d built --compact own.txt
same built/own.res wanted.res
# and where the first one was that rules leave out
printf 'out{ a{"v"} e:process(dependency){"y"} f{"w"} }' > source/out.txt
printf -- '-/e\n' > rules/out.txt
words 2 20000012 7 d 17 17 3 0 12 25250061 45504544 4e45444e 66005943 aaaaaa00 760000 770000 \
  790000 10000 aaaa0005 220003 2f0020 90000007 60000001 60000003 > wanted.res
told 0 '' '' genrb -q -s source -d built --compact --filterDir rules out.txt
same built/out.res wanted.res
# of what rules leave, a key comes where it stands first
printf 'f{ a{ keep{"1"} b{"2"} } b{"one two three"} c{ keep{"2"} x{"3"} } }' > source/f.txt
printf 'g{ b{"one two three"} keep{"two three"} }' > source/g.txt
printf -- '-/a/*\n+/a/b\n-/c/x\n' > rules/f.txt
printf -- '-/none\n' > rules/g.txt
told 0 '' '' genrb -q -s source -d built --compact --filterDir rules --writePoolBundle shared \
  f.txt g.txt
words 3 20000000 8 c 14 14 0 3 14 1b50aaf0 620061 656b0063 aa007065 6f0000 65006e 740020 6f0077 \
  740020 720068 650065 aaaa0000 > wanted.res
same shared/pool.res wanted.res
told 0 '' '' genrb -q -s source -d over --compact --filterDir rules --usePoolBundle shared f.txt
words 3 2000000e 208 9 13 13 3 20004 e 1b50aaf0 320000 10000 30002 60001 aaaa0003 3 40002 \
  50000003 60000001 50000006 > wanted.res
same over/f.res wanted.res
# of an option that is said twice the last counts
told 0 '' '' genrb -q -q -s none -s source -d none -d over --compact --filterDir none \
  --filterDir rules --usePoolBundle none --usePoolBundle shared f.txt
same over/f.res wanted.res
told 3 '' 'source/f.txt: its file has format 3.0, and --formatVersion asks for 2' \
  genrb -q -s source -d over --formatVersion 2 --filterDir rules --usePoolBundle shared f.txt
# a binary form comes behind all else of its type
printf 'de{ z{"1"} collations{ standard{ %s m{"x"} } x{y{"1"}} } a{"b"} }' \
  'Version{"1"} Sequence{"&a<b"}' > source/coll.txt
printf 'de{ z{"1"} collations{ standard{ %s m{"x"} %s } x{y{"1"}} } a{"b"} }' \
  'Version{"1"} Sequence{"&a<b"}' '%%CollationBin:bin{00ff}' > forms.txt
told 0 '' '' compile --icu --compact forms.txt -o forms/de.res
told 0 '' '' genrb -q -s source -d built --compact --collation forms coll.txt
same built/de.res forms/de.res
# and a pool bundle has its key there
printf 'root{ b{"hello"} d{"x"} }' > source/other.txt
printf 'de{ z{"1"} collations{ standard{ Sequence{"&a<b"} Version{"1"} } } zz{"x"} }' \
  > source/zz.txt
told 0 '' '' genrb -q -s source -d built --compact --collation forms --writePoolBundle shared \
  other.txt zz.txt
words 3 20000000 8 18 19 19 0 3 19 4172b36e 6f630062 74616c6c 736e6f69 61747300 7261646e \
  65530064 6e657571 56006563 69737265 25006e6f 6c6f4325 6974616c 69426e6f 7a7a006e aaaaaa00 \
  aaaa0000 > wanted.res
same shared/pool.res wanted.res
