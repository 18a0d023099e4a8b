# shellcheck shell=bash
# What a call writes: not over what it reads, not where a warning refuses a text, and only as it is
# asked. It is read by tests/resb.sh, behind the parts that stand before it there.
mkdir -p w/in w/out w/sub
# a text with a warning has no file by ICU's words either
printf 'warned{a{"x","y"\n "z"}}' > w/in/warned.txt
printf 'clean{a{"x"}}' > w/in/clean.txt
warned='w/in/warned.txt:2:2: warning: this string is joined to the one before; a comma would part them
w/in/warned.txt: no file is written, since this has warnings'
told 3 '' "$warned" genrb --strict-warnings -s w/in -d w/out warned.txt clean.txt
holds w/out clean.res
told 3 '' "$warned" genrb -q --strict-warnings -s w/in -d w/out warned.txt
told 0 '' '' genrb -q -s w/in -d w/out warned.txt
holds w/out 'clean.res warned.res'
rm w/out/*

# what a call reads isn't replaced: a pool bundle that it uses, under any of its names
printf 'pool{a{"x"}}' > w/in/pool.txt
printf 'k{alpha{"one two three"}}' > w/in/k.txt
told 0 '' '' genrb -q -s w/in -d w/out --writePoolBundle -k k.txt
cp w/out/pool.res w/kept.res
told 4 '' 'w/in/pool.txt: writing w/out/pool.res would replace w/out/pool.res, which this call reads' \
  genrb -q -s w/in -d w/out --usePoolBundle w/out pool.txt k.txt
same w/out/pool.res w/kept.res
told 2 '' 'w/in/k.txt: writing w/out/pool.res would replace w/out/pool.res, which this call reads' \
  compile --icu --pool w/out w/in/k.txt -o w/out/pool.res
same w/out/pool.res w/kept.res
ln w/out/pool.res w/out/hard.res
ln -s ../out/pool.res w/sub/soft.res
told 2 '' 'w/in/k.txt: writing w/out/hard.res would replace w/out/pool.res, which this call reads' \
  compile --icu --pool w/out w/in/k.txt -o w/out/hard.res
told 2 '' 'w/in/k.txt: writing w/sub/../out/pool.res would replace w/out/pool.res, which this call'\
' reads' compile --icu --pool w/out w/in/k.txt -o w/sub/soft.res
same w/out/pool.res w/kept.res
# .. a text, by a pool bundle that is written
cp w/in/clean.txt w/in/pool.res
told 4 '' 'w/in/pool.res: writing w/in/pool.res would replace w/in/pool.res, which this call reads' \
  genrb -q -s w/in -d w/sub --writePoolBundle w/in -k pool.res
same w/in/pool.res w/in/clean.txt
told 4 '' 'w/sub/pool.res: its file w/sub/pool.res is that of w/in/pool.txt too' \
  genrb -q -s w/in -d w/sub --writePoolBundle -k pool.txt
rm w/in/pool.res w/sub/*
# .. a file that a text takes in, and rules
printf 'i{a:include{"n.txt"}}' > w/in/i.txt
printf 'words' > w/in/n.txt
told 2 '' 'w/in/i.txt: writing w/in/n.txt would replace w/in/n.txt, which this call reads' \
  compile --icu w/in/i.txt -o w/in/n.txt
[ "$(cat w/in/n.txt)" = words ] && passed=$((passed + 1)) || { failed=$((failed + 1)); }
printf 'k{a{"x"}}' > w/in/k.txt
printf -- '-/b\n' > w/sub/k.txt
ln -f w/sub/k.txt w/out/k.res
told 4 '' 'w/in/k.txt: writing w/out/k.res would replace w/sub/k.txt, which this call reads' \
  genrb -q -s w/in -d w/out --filterDir w/sub k.txt
rm w/out/*
# .. a package and a pool bundle, by a text that is made of a file
cp small.res w/sub/b.res
cp small.res w/sub/b.txt
told 2 '' 'w/sub/b.res: writing w/sub/b.txt would replace w/sub/b.txt, which this call reads' \
  dump w/sub/b.res --pool w/sub/b.txt -d w/sub
same w/sub/b.txt small.res
rm -r w/sub/*
# a file that the call itself wrote isn't taken in
printf 'n{a{"x"}}' > w/in/n.txt
printf 'j{a:import{"n.res"}}' > w/in/j.txt
told 2 '' 'w/in/j.txt: this reads w/in/n.res, which this call wrote for w/in/n.txt' \
  compile --icu w/in/n.txt w/in/j.txt
# .. and one that a later text takes in stays
printf 'precious' > w/in/n.res
told 2 '' 'w/in/n.txt: writing w/in/n.res would replace w/in/n.res, which this call reads' \
  compile --icu w/in/n.txt w/in/j.txt
[ "$(cat w/in/n.res)" = precious ] && passed=$((passed + 1)) || { failed=$((failed + 1)); }
[ "$(ls -A w/in | grep -c part)" = 0 ] && passed=$((passed + 1)) || { failed=$((failed + 1)); }
told 0 '{"a":{"binary":"70726563696f7573"}}' '' dump --json w/in/j.res
rm w/in/n.res w/in/j.res
# .. and the pool bundle that is found beside a file
told 0 '' '' genrb -q -s w/in -d w/out --writePoolBundle -k k.txt
told 0 '' '' genrb -q -s w/in -d w/out --usePoolBundle w/out k.txt
cp w/out/pool.res w/kept.res
ln -s ../out/pool.res w/sub/k.txt
told 2 '' 'w/out/k.res: writing w/sub/../out/pool.res would replace w/out/pool.res, which this call'\
' reads' dump w/out/k.res -d w/sub
same w/out/pool.res w/kept.res
rm w/sub/k.txt w/out/*

# what is taken in stays inside of the text's folder, and is a file
printf 'far' > w/far.txt
printf 'o{a:include{"../far.txt"}}' > w/in/o.txt
told 1 '' 'w/in/o.txt:1:4: this takes in w/in/../far.txt, which is outside of its folder; '\
'--include-outside allows that' compile --icu w/in/o.txt -d w/out
told 0 '' '' compile --icu --include-outside w/in/o.txt -d w/out
told 0 far '' get w/out/o.res a
told 3 '' 'w/in/o.txt:1:4: this takes in w/in/../far.txt, which is outside of its folder; '\
'--include-outside allows that' genrb -q -s w/in -d w/out o.txt
told 0 '' '' genrb -q -s w/in -d w/out --include-outside o.txt
ln -s ../far.txt w/in/near.txt
printf 'o{a:include{"near.txt"}}' > w/in/o.txt
told 1 '' 'w/in/o.txt:1:4: this takes in w/in/near.txt, which is outside of its folder; '\
'--include-outside allows that' compile --icu w/in/o.txt -d w/out
mkdir w/in/deep
printf 'inside' > w/in/deep/x.txt
printf 'o{a:include{"deep/../deep/x.txt"}}' > w/in/o.txt
told 0 '' '' compile --icu w/in/o.txt -d w/out
mkfifo w/in/pipe
printf 'o{a:include{"pipe"}}' > w/in/o.txt
told 2 '' 'w/in/o.txt:1:4: this takes in w/in/pipe: this is a device or a pipe' \
  compile --icu w/in/o.txt -d w/out
for number in {0..1000}; do printf 'k%s:include{"f%s"} ' $number $number; : > w/in/f$number; done > m.txt
printf 'm{ %s}' "$(cat m.txt)" > w/in/m.txt
told 1 '' 'w/in/m.txt:1:20789: this takes in w/in/f1000, and 1000 other files before it' \
  compile --icu w/in/m.txt -d w/out
rm w/in/f*
# twenty missing dependencies are named
python3 -c "
print('m{' + ' '.join(f'k{n}:process(dependency){{\"d{n}.res\"}}' for n in range(23)) + '}')" > w/in/m.txt
(exec -a resb "$program" genrb -s w/in -d w/out m.txt) 2> err
[ "$(grep -c 'there is no file' err)" = 20 ] && [ "$(tail -n 1 err)" = \
  'w/in/m.txt: warning: 3 more files are missing, on which this depends' ] \
  && passed=$((passed + 1)) || { failed=$((failed + 1)); cat err; }

# a pool bundle of a text that is read from a pipe
rm -f w/out/* w/in/pipe
mkfifo w/in/pipe.txt
cat w/in/k.txt > w/in/pipe.txt &
told 0 '' '' genrb -q -s w/in -d w/out --writePoolBundle -k pipe.txt
holds w/out 'k.res pool.res'
rm w/in/pipe.txt w/out/*

# a file that would be the same stays, and its time
told 0 '' '' compile --icu w/in/k.txt -d w/out
touch -d 2001-01-01 w/out/k.res
told 0 '' '' compile --icu --if-changed --sync w/in/k.txt -d w/out
[ "$(stat -c %Y w/out/k.res)" = "$(date -d 2001-01-01 +%s)" ] \
  && passed=$((passed + 1)) || { failed=$((failed + 1)); echo 'k.res is new'; }
printf 'k{a{"y"}}' > w/in/k.txt
told 0 '' '' genrb -q --if-changed --sync -s w/in -d w/out k.txt
told 0 y '' get w/out/k.res a

# what make is told
printf 'i{a:include{"n n.txt"}}' > w/in/i.txt
printf 'n' > 'w/in/n n.txt'
told 0 '' '' compile --icu w/in/i.txt w/in/k.txt -d w/out --depfile w/out/all.d
printf 'w/out/i.res: \\\n  w/in/i.txt \\\n  w/in/n\\ n.txt\nw/out/k.res: \\\n  w/in/k.txt\n' > wanted.d
printf '\nw/in/n\\ n.txt:\n' >> wanted.d
same w/out/all.d wanted.d
printf -- '-/b\n' > w/sub/k.txt
told 0 '' '' genrb -q -s w/in -d w/out --writePoolBundle w/sub -k k.txt i.txt
touch -d 2001-01-01 w/sub/pool.res
told 0 '' '' genrb -q -s w/in -d w/out --if-changed --writePoolBundle w/sub --depfile w/k.d k.txt i.txt
[ "$(stat -c %Y w/sub/pool.res)" = "$(date -d 2001-01-01 +%s)" ] \
  && passed=$((passed + 1)) || { failed=$((failed + 1)); echo 'pool.res is new'; }
printf 'w/out/k.res: \\\n  w/in/k.txt\nw/out/i.res: \\\n  w/in/i.txt \\\n  w/in/n\\ n.txt\n' > wanted.d
printf 'w/sub/pool.res: \\\n  w/in/i.txt \\\n  w/in/k.txt \\\n  w/in/n\\ n.txt\n' >> wanted.d
printf '\nw/in/n\\ n.txt:\n' >> wanted.d
same w/k.d wanted.d
told 0 '' '' genrb -q -s w/in -d w/out --usePoolBundle w/sub --filterDir w/sub --depfile w/k.d k.txt
printf 'w/out/k.res: \\\n  w/in/k.txt \\\n  w/sub/k.txt \\\n  w/sub/pool.res\n' > wanted.d
printf '\nw/sub/k.txt:\n\nw/sub/pool.res:\n' >> wanted.d
same w/k.d wanted.d
told 2 '' 'w/in/k.txt: writing w/in/k.txt would replace w/in/k.txt, which this call reads' \
  compile --icu w/in/k.txt -d w/out --depfile w/in/k.txt
# a folder that isn't there is told once
told 2 '' 'w/nowhere: no such folder' compile --icu w/in/i.txt w/in/k.txt -d w/nowhere
# the rules stay where a text is refused, and where nothing is written
printf 'i{a:include{"nowhere.txt"}}' > w/in/i.txt
told 2 '' 'w/in/i.txt:1:4: this takes in w/in/nowhere.txt: no such file' \
  compile --icu w/in/i.txt -d w/out --depfile w/k.d
told 0 '' '' compile --icu --check w/in/k.txt -d w/out --depfile w/k.d
same w/k.d wanted.d
printf 'k{a{"y"}}' > 'w/in/k #$:%.txt'
told 0 '' '' compile --icu --quiet 'w/in/k #$:%.txt' -d w/out --depfile w/k.d
printf 'w/out/k\\ \\#$$\\:\\%%.res: \\\n  w/in/k\\ \\#$$\\:%%.txt\n' > wanted.d
same w/k.d wanted.d
printf 'k{a{"y"}}' > 'w/in/k=.txt'
told 2 '' "w/out/k=.res: --depfile can't say this name to make" \
  compile --icu --quiet 'w/in/k=.txt' -d w/out --depfile w/k.d

# folders of 1, 40, 1,000 and 20,000 names, of which the system doesn't give all at a time
for count in 1 40 1000 20000; do
  mkdir w/many w/made
  python3 -c "
for n in range($count):
    open(f'w/many/{n:05}' + 'x' * (n % 240) + '.txt', 'w').write('b{a{\"x\"}}')"
  { "$program" compile --quiet -d w/made w/many && "$program" check w/made; } > out 2> err
  [ $? = 0 ] && [ "$(wc -l < out)" = "$count" ] && [ ! -s err ] \
    && passed=$((passed + 1)) || { failed=$((failed + 1)); wc -l out; head -3 err; }
  rm -r w/many w/made
done
rm -r w
