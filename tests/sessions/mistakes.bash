# shellcheck shell=bash
# The mistakes that people make in texts: the first line says which, at its place; and bundles that
# aren't named as their texts.
# It is read by tests/resb.sh, behind the parts that stand before it there.
# the words before the text, the line and the column, what is said there, and the text, as printf
# writes it
while IFS=@ read -r form place said text; do
  printf '%b' "$text" > mistake.txt
  printf -v said '%b' "$said"
  # shellcheck disable=SC2086
  (exec -a resb "$program" compile $form mistake.txt) > out 2> err
  if [ "$?" = 1 ] && [ "$(head -n 1 err)" = "mistake.txt:$place: $said" ]; then
    passed=$((passed + 1))
  else
    failed=$((failed + 1))
    printf '%s: ' "$form $text"
    head -n 1 err
  fi
done << 'END'
--icu@2:2@duplicate key 'a', first at line 1@b{a{x}\n a{y}}
--icu@1:8@duplicate key 'a', first at column 3@b{a{x} a{y}}
--icu@1:8@this comment has no end: a '*/' is missing@b{a{x} /* y }
--icu@1:8@for ICU '/**/' is a comment without an end: write '/* */'@b{a{x} /**/}
--icu@1:8@a comment begins with '//' or '/*'@b{a{x} / y }
--icu@1:8@a comment begins with '//' or '/*'@b{a{x} # y\n}
--icu@1:9@'$' can't stand in a key@b{a{x} c$d{y}}
--icu@1:9@'\\' can't stand in a key@b{a{x} "\\n"{y}}
--icu@1:3@'\303\251' can't stand in a key@b{\303\251{y}}
--icu@1:10@a key of several words needs quotes@b{a{x} c d{y}}
--icu@1:12@a key is one string, and this is a second one@b{a{x} "c" "d"{y}}
--icu@1:8@there is no '{' behind 'c'@b{a{x} c\nd{y}}
--icu@1:10@there is no '{' behind 'c'@b{a{x} c = y}
--icu@1:5@this value has no '{' before it@b{a "x"}}
--icu@1:8@a type stands behind its key, with a ':' before it@b{a{x} int c{1}}
--icu@1:8@this value has no key@b{a{x} {y}}
--icu@1:7@commas stand between members of an array, not between entries of a table@b{a{x},c{y}}
--icu@1:7@entries of a table have no semicolons@b{a{x}; c{y}}
--icu@1:1@the bundle has no name@{a{x}}
--icu@1:3@the bundle's name is one word@b c{a{x}}
--icu@1:2@'/' can't stand in the bundle's name@b/c{a{x}}
--icu@1:4@a value stands in braces, and a type behind ':'@b{a: x}
--icu@1:5@there is no type 'integr'; is integer meant?@b{a:integr{1}}
--icu@1:9@behind a first 0 stand octal digits, 0 to 7, or an x and hex digits@b{a:int{0o17}}
--icu@1:9@behind a first 0 stand octal digits, 0 to 7, or an x and hex digits@b{a:int{08}}
--icu@1:9@an integer has 28 bits: -134217728 to 268435455@b{a:int{5000000000}}
--icu@1:15@a vector's numbers have 32 bits: -2147483648 to 4294967295@b{a:intvector{-2147483649}}
--icu@1:9@these quotes hold no number, or one of more than 32 bits@b{a:int{"1 "}}
--icu@1:9@numbers are whole@b{a:int{3.5}}
--icu@1:10@a group of this type has one value@b{a:int{1,2}}
--icu@1:9@an odd number of hex digits (1): each byte has two@b{a:bin{"0"}}
--icu@1:10@'g' is no hex digit@b{a:bin{"g0"}}
--icu@1:8@this '}' is one too many@b{a{x}}}/*
--icu@2:6@the bundle ends with this '}', and text stands behind it@b{\n a{x}}\n c{"\\t"}\n}
--icu@1:8@the bundle ends before this, and a text has only one@b{a{x}}c{"\\t"}
--icu@1:7@a quote inside a string needs a backslash before it@b{a{"x"y"}}
--icu@1:6@a quote is missing where this string begins@b{a{x"}}
--icu@1:5@the quote that closes this string may be missing in its line@b{a{"x\n}c{"y"}}
--icu@2:2@a '}' is missing before this entry@b{a{"x"\n c{"y"}}
--icu@1:9@two commas in a row@b{a{"x",,"y"}}
@1:8@this comment has no end: a '*/' is missing@b{a{x} /* y }
@1:3@this comment has no end: a '*/' is missing@b{/*/}
@1:8@a comment begins with '//' or '/*'@b{a{x} # y\n}
@2:1@a comment begins with '//' or '/*'@b{// y\n# y\na{x}}
@1:8@a comment begins with '//' or '/*'@b{a{x} / y }
@1:5@a string that begins with '/' needs quotes@b{a{/c}}
@1:8@'$' needs quotes round its string@b{a{x} $c{y}}
@1:9@'_' needs quotes round its string@b{a{x} c_d{y}}
@1:5@'\303\251' needs quotes round its string@b{a{\303\251}}
@1:10@a key of several words needs quotes@b{a{x} c d{y}}
@1:10@expected '{'@b{a{x} c }
@1:8@there is no '{' behind 'c'@b{a{x} c\nd{y}}
@1:10@this value has no '{' before it@b{a{x} c "y"}
@1:9@this value has no '{' before it@b{a{x} c"y"}
@1:8@this value has no key@b{a{x} {y}}
@1:3@this value has no key@b{{x}}
@1:3@'\303\251' needs quotes round its string@b{\303\251{y}}
@1:7@commas stand between members of an array, not between entries of a table@b{a{x},c{y}}
@1:7@entries of a table have no semicolons@b{a{x};c{y}}
@1:1@the bundle has no name@{a{x}}
@1:5@there is no blank between ':' and a type@b{a: int{1}}
@1:3@there is no blank between ':' and a type@b: table{}
@1:2@the root is a table: its type is table, if it has one@b:array{}
@1:4@a value stands in braces, and a type behind ':'@b{a: x}
@1:5@there is no type 'integr'; is integer meant?@b{a:integr{1}}
@1:10@a number is decimal@b{a:int{0x1F}}
@1:9@an integer has 28 bits: -134217728 to 268435455@b{a:int{5000000000}}
@1:15@a vector's numbers have 32 bits: -2147483648 to 4294967295@b{a:intvector{-2147483649}}
@1:9@a number has no quotes@b{a:int{"1"}}
@1:10@numbers are whole@b{a:int{3.5}}
@1:10@a group of this type has one value@b{a:int{1,2}}
@1:17@a comma is missing before this number@b{a:intvector{1 2}}
@1:17@two commas in a row@b{a:intvector{1,,2}}
@1:9@an odd number of hex digits (1): each byte has two@b{a:bin{"0"}}
@1:10@'g' is no hex digit@b{a:bin{"g0"}}
@1:8@this '}' is one too many@b{a{x}}}
@2:6@the bundle ends with this '}', and text stands behind it@b{\n a{x}}\n c{y}\n}
@1:8@the bundle ends before this, and a text has only one@b{a{x}}c{y}
@1:5@nothing closes this quote@b{a{"x}}
@1:5@the quote that closes this string may be missing in its line@b{a{"x\n}c{"y"}}
@2:4@the quote that closes this string may be missing in its line@b{\n a{"x}\n c{"y"}\n d{"z"}\n}
END

# a bundle that isn't named as its text, where the text names the file
mkdir named
printf '// of the web\n"web"{a{x}}' > named/app.txt
named="named/app.txt:2:1: warning: the bundle is named 'web', but this makes app.res: \
what looks for web.res won't find it"
told 0 '' "$named" compile named/app.txt
told 0 '' "$named" compile --icu named/app.txt
told 0 '' "$named" compile --check named/app.txt -d .
told 1 '' "$named
named/app.txt: no file is written, since this has warnings" compile --check --strict named/app.txt
told 1 '' "$named
named/app.txt: no file is written, since this has warnings" \
  compile --check --strict --quiet named/app.txt
told 0 '' '' compile --strict named/app.txt -o named/other.res
told 0 '' '' compile --strict --by-name named/app.txt
told 0 '' '' genrb -q -s named -d named app.txt
holds named 'app.res app.txt other.res web.res'
printf '\357\273\277/* {*/ /* */// }\n web :table{a{x}}' > named/web.txt
told 0 '' '' compile --icu --strict named/web.txt
# a bundle of another name than its text, for which make waits in vain
mkdir -p named/out
told 0 '' "named/app.txt:2:1: warning: the bundle is named 'web', so this makes web.res, and no app.res" \
  genrb -s named -d named/out app.txt
holds named/out web.res
told 3 '' "named/app.txt:2:1: warning: the bundle is named 'web', so this makes web.res, and no app.res
named/app.txt: no file is written, since this has warnings" \
  genrb --strict-warnings -s named -d named/out app.txt
told 0 '' '' genrb -q -s named -d named/out app.txt
