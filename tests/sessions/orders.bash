# shellcheck shell=bash
# Orders of bytes: files in big-endian order, and how they are written and swapped.
# It is read by tests/resb.sh, behind the parts that stand before it there.
mkdir o o/big o/little
told 0 '' '' swap names.res o/names.res
told 0 'o/names.res: 8 resources, format 2.0, big-endian, fallback, largest table 5' '' \
  check o/names.res
rest='"fallback":true,"largest_table":5,"pool_bundle":false,"over":null}'
told 0 '{"path":"o/names.res","ok":true,"resources":8,"format":"2.0","order":"big-endian",'"$rest" \
  '' check --json o/names.res
told 0 '{"path":"names.res","ok":true,"resources":8,"format":"2.0","order":"little-endian",'"$rest" \
  '' check --json names.res
told 0 "$printed" '' dump o/names.res
told 0 '-2' '' get o/names.res v/1
told 0 '["a","c"]' '' get --check o/names.res list
told 0 '' '' diff names.res o/names.res
# twice is the same file; one that has the order already is copied
told 0 '' '' swap o/names.res o/again.res
same names.res o/again.res
told 0 '' '' swap names.res o/copy.res --to little
same names.res o/copy.res
told 0 '' '' swap names.res o/copy.res --to big
same o/names.res o/copy.res
told 0 '' '' swap o/names.res o/copy.res --to big
same o/names.res o/copy.res
input=o/names.res
told 0 "bundle${printed#names}" '' dump -
(exec -a resb "$program" swap - -) < o/names.res > o/stream.res
same names.res o/stream.res
input=
told 2 '' 'resb: --to is big or little' swap names.res o/copy.res --to middle
told 2 '' 'names.res: writing names.res would replace names.res, which this call reads' \
  swap names.res names.res

# what is no such file
told 1 '' 'broken.res: Invalid resource bundle data: input is too short to contain file header' \
  swap broken.res o/copy.res
cp names.res o/ebcdic.res
printf '\001' | dd of=o/ebcdic.res bs=1 seek=9 conv=notrunc 2> /dev/null
told 1 '' 'o/ebcdic.res: written for an EBCDIC machine' check o/ebcdic.res
told 1 '' 'o/ebcdic.res: written for an EBCDIC machine' swap o/ebcdic.res o/copy.res
head -c -4 o/names.res > o/cut.res
told 1 '' 'o/cut.res: a resource lies outside the file' dump o/cut.res
told 1 '{"path":"o/cut.res","ok":false,"kind":"invalid data","message":"a resource lies outside the file"}' \
  '' check --json o/cut.res

# files are written in big-endian order, over a pool bundle in that order too
told 0 '' '' compile --big-endian names.txt -o o/written.res
same o/names.res o/written.res
printf 'one{a{"shared"} b{"own"}}' > o/one.txt
printf 'two{a{"shared"} c{"own too"}}' > o/two.txt
for order in little big; do
  [ "$order" = big ] && flag=--big-endian || flag=--quiet
  told 0 '' '' genrb -q -C $flag -s o -d o/$order --writePoolBundle o/$order one.txt two.txt
  told 0 '' '' genrb -q -C $flag -s o -d o/$order --usePoolBundle o/$order one.txt two.txt
done
for file in pool one two; do
  told 0 '' '' swap o/little/$file.res o/$file.res
  same o/$file.res o/big/$file.res
done
told 0 'shared' '' get o/big/one.res a
told 0 'shared' '' get --pool o/little/pool.res o/big/two.res a
told 0 'shared' '' get --pool o/big/pool.res o/little/two.res a
told 0 'o/big/one.res: 3 resources, format 2.0, big-endian, fallback, largest table 2, over o/big/pool.res' \
  '' check o/big/one.res

# a package is swapped with its items, if each is a bundle
package() {
  printf '\040\0\332\047\024\0\0\0\0\0\2\0CmnD\1\0\0\0\3\0\0\0\0\0\0\0\0\0\0\0'
  printf '\1\0\0\0\014\0\0\0\040\0\0\0p/names.res\0\252\252\252\252\252\252\252\252'
  cat "$1"
}
package names.res > o/p.dat
told 0 '' '' swap o/p.dat o/big.dat
told 0 'p/names.res' '' list o/big.dat
told 0 '' '' extract o/big.dat names.res -o o/item.res
same o/names.res o/item.res
told 0 '-2' '' get o/big.dat/names.res v/1
told 0 '' '' swap o/big.dat o/copy.dat --to little
same o/p.dat o/copy.dat
told 0 '' '' swap o/big.dat o/copy.dat --to big
same o/big.dat o/copy.dat
package names.txt > o/text.dat
told 1 '' "o/text.dat: p/names.res is no resource bundle, and swap takes packages of these alone; \
ICU's icupkg -t takes each kind" swap o/text.dat o/copy.dat
package o/names.res > o/both.dat
told 1 '' 'o/both.dat: p/names.res has another order of bytes than the package' \
  swap o/both.dat o/copy.dat
head -c 40 o/big.dat > o/cut.dat
told 1 '' 'o/cut.dat: the table of items runs past the end of the file' swap o/cut.dat o/copy.dat
told 1 '' 'o/cut.dat: the table of items runs past the end of the file' list o/cut.dat
rm -r o
