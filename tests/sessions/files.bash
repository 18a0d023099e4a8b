# shellcheck shell=bash
# Files: what is printed of them, what is refused, and streams in their place.
# It is read by tests/resb.sh, behind the parts that stand before it there.
printf 'names {\n  b:bin{"00ff"} hi{"hello"} list:array{"a","c"}\n' > names.txt
printf '  n:int{-5} v:intvector{1,-2}\n}\n' >> names.txt
told 0 '' '' compile names.txt
told 0 'names.res: 8 resources, format 2.0, fallback, largest table 5' '' check names.res
printed='names{
    b:bin{"00ff"}
    hi{"hello"}
    list:array{
        "a",
        "c",
    }
    n:int{268435451}
    v:intvector{1,4294967294}
}'
told 0 "$printed" '' dump names.res
told 0 '{"b":{"binary":"00ff"},"hi":"hello","list":["a","c"],"n":-5,"v":[1,-2]}' '' \
  dump --json names.res
told 0 'hello' '' get names.res hi
told 0 '-5' '' get names.res n
told 0 '-2' '' get names.res v/1
told 0 'c' '' get names.res list/1
told 0 '["a","c"]' '' get names.res list
told 1 '' 'names.res: nothing stands at list/2' get names.res list/2
told 1 '' 'names.res: nothing stands at hi/x' get names.res hi/x
told 1 '' "names.res: nothing stands at ''" get names.res ''
told 1 '' "names.res: nothing stands at ''" get --check names.res ''
# a file that uses no pool bundle: none is looked at, also one that is named
told 0 'hello' '' get --pool nowhere.res names.res hi
told 0 'hello' '' get --check names.res hi
# what is no array or table is read though the last member of the root leads outside the file
{ head -c -4 names.res; printf '\xff\xff\xff\xef'; } > cut.res
outside='cut.res: Invalid resource bundle data: unexpected end of input'
told 0 'hello' '' get cut.res hi
told 0 '-5' '' get cut.res n
told 0 'c' '' get cut.res list/1
told 0 '{"binary":"00ff"}' '' get cut.res b
told 1 '' 'cut.res: nothing stands at nowhere' get cut.res nowhere
told 1 '' "$outside" get cut.res v
told 1 '' "$outside" get cut.res v/0
told 1 '' "$outside" get cut.res list
told 1 '' "$outside" get --check cut.res nowhere
told 1 '' "$outside" get --check cut.res hi
told 1 '' "$outside" get --limit 100000 cut.res hi

# what is dumped compiles to the same file where its keys stand in their order, through a stream too
(exec -a resb "$program" dump names.res) > again.txt
told 0 '' '' compile again.txt -o again.res
same names.res again.res
input=names.txt
told 0 '' '' compile - -o stream.res
same names.res stream.res
input=

# a file that fails doesn't stop the others; what else the line of a file says
printf x > broken.res
told 1 'names.res: 8 resources, format 2.0, fallback, largest table 5' \
  'broken.res: Invalid resource bundle data: input is too short to contain file header' \
  check names.res broken.res
printf 'off:table(nofallback){a{"x"}}' > off.txt
told 0 '' '' compile off.txt
told 0 'off.res: 2 resources, format 2.0, no fallback, largest table 1' '' check off.res
# the attributes are the sixth field of the index: bit 1 says that the file is a pool bundle, which
# has a checksum (tests/pools.py has those)
cp names.res pool.res
printf '\002' | dd of=pool.res bs=1 seek=56 conv=notrunc 2> /dev/null
told 1 '' 'pool.res: Invalid resource bundle data: pool checksum not specified' check pool.res
rm pool.res

# streams in the place of files
input=names.res
told 0 '-: 8 resources, format 2.0, fallback, largest table 5' '' check -
told 0 "${printed/names/bundle}" '' dump -
told 0 'hello' '' get - hi
input=
(exec -a resb "$program" compile -) < names.txt > stdout.res
same names.res stdout.res
told 2 '' "error: the argument '--output <OUT>' cannot be used with '--directory <DIR>'

Usage: resb compile --output <OUT> <FILE>...

For more information, try '--help'." compile names.txt -o a.res -d .
