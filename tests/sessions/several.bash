# shellcheck shell=bash
# Several texts, packages, and what differs between two files.
# It is read by tests/resb.sh, behind the parts that stand before it there.
# several texts, one of them refused, into a folder that holds none of their files yet
mkdir fresh
told 1 '' $'open.txt:1:2: expected \'}\' before the text ends inside this\nb{\n ^' \
  compile open.txt names.txt -d fresh
same names.res fresh/names.res
[ "$(ls fresh)" = names.res ] && passed=$((passed + 1)) || { failed=$((failed + 1)); ls fresh; }

# two texts that would have one file: the later one is refused
mkdir -p one two into
printf 'a{x{"first"}}' > one/a.txt
printf 'a{x{"second"}}' > two/a.txt
told 2 '' 'two/a.txt: its file into/a.res is that of one/a.txt too' \
  compile one/a.txt two/a.txt -d into
told 0 'first' '' get into/a.res x

# a write that fails leaves the old file, and nothing beside it
cp names.res kept.res
(trap '' XFSZ; ulimit -f 0; exec -a resb "$program" compile b.txt -o kept.res) > out 2> err
[ $? = 2 ] && passed=$((passed + 1)) || { failed=$((failed + 1)); cat err; }
same names.res kept.res

# JSON of any depth
deep() { printf 'b{a%s%s}' "$(printf ':array{%.0s' $(seq "$1"))" "$(printf '}%.0s' $(seq "$1"))"; }
deep 50000 > deep.txt
told 0 '' '' compile deep.txt -o deep.res
told 0 "{\"a\":$(printf '[%.0s' $(seq 50000))$(printf ']%.0s' $(seq 50000))}" '' \
  dump --json deep.res

# standard input and output are the files that they are
cp names.txt own.txt
input=own.txt
told 2 '' '-: writing own.txt would replace -, which this call reads' compile - -o own.txt
input=
(exec -a resb "$program" compile own.txt -o /dev/stdout) >> own.txt 2> err
[ $? = 2 ] && passed=$((passed + 1)) || { failed=$((failed + 1)); cat err; }
same names.txt own.txt

# a file that standard output is counts too; a text that is refused takes no file
cp names.txt two.txt
(exec -a resb "$program" compile --quiet - two.txt) < own.txt > two.res 2> err
[ $? = 2 ] && [ "$(cat err)" = 'two.txt: its file two.res is that of - too' ] \
  && passed=$((passed + 1)) || { failed=$((failed + 1)); cat err; }
same names.res two.res
cp names.txt open.two
told 1 '' $'open.txt:1:2: expected \'}\' before the text ends inside this\nb{\n ^' \
  compile --quiet open.txt open.two
same names.res open.res

# a package's items, by their names with the package's own before them and without it
python3 -c "
import struct
items = [(b'p/a.res', b'one'), (b'p/sub/b.res', b'two!'), (b'p/z', b'')]
at, names = 4 + 8 * len(items), b''.join(name + b'\\0' for name, _ in items)
table, behind = struct.pack('<I', len(items)), at + len(names)
for name, item in items:
    table += struct.pack('<II', at, behind)
    at, behind = at + len(name) + 1, behind + len(item)
head = struct.pack('<HBBHHBBBB4s4s4s', 32, 0xDA, 0x27, 20, 0, 0, 0, 2, 0, b'CmnD', b'\\1', b'')
open('p.dat', 'wb').write(head.ljust(32, b'\\0') + table + names + b''.join(it for _, it in items))
"
told 0 $'p/a.res\np/sub/b.res\np/z' '' list p.dat
input=p.dat
told 0 'one' '' extract - p/a.res
input=
told 0 'two!' '' extract p.dat sub/b.res
told 0 '' '' extract p.dat p/z
told 0 '' '' extract p.dat a.res -o a.item
[ "$(cat a.item)" = one ] && passed=$((passed + 1)) || { failed=$((failed + 1)); cat a.item; }
told 1 '' 'p.dat: no item is named c.res' extract p.dat c.res
cp p.dat kept.dat
told 2 '' 'p.dat: writing p.dat would replace p.dat, which this call reads' extract p.dat a.res -o p.dat
same p.dat kept.dat
told 1 '' 'names.res: not a package, but another kind of ICU data' list names.res
told 2 '' 'none.dat: no such file' extract none.dat a.res

# what differs between two files: the words of each line follow from the texts
mkdir -p old
printf 'd{a{"x"}c:intvector{1,-2}l{"p","q"}t{k{"1"}z:int{5}}}' > old/d.txt
printf 'd{a{"y"}c:intvector{1,-2}l{"p","q","r"}n:bin{"00ff"}t{z:alias{"/q"}}}' > d.txt
told 0 '' '' compile --icu old/d.txt d.txt
told 1 $'~ a "x" -> "y"\n+ l/2 "r"\n+ n {"binary":"00ff"}\n- t/k "1"\n~ t/z 5 -> {"alias":"/q"}' \
  '' diff old/d.res d.res
told 1 $'{"path":"a","old":"x","new":"y"}\n{"path":"l/2","new":"r"}
{"path":"n","new":{"binary":"00ff"}}\n{"path":"t/k","old":"1"}
{"path":"t/z","old":5,"new":{"alias":"/q"}}' '' diff --json old/d.res d.res
told 0 '' '' diff d.res d.res
# two kinds that read alike: the kinds are said
printf 'h{a:alias{"/q"}h:array{:int{1} :int{2}}n:bin{"00ff"}v:intvector{1}}' > old/h.txt
printf 'h{a:table{alias{"/q"}}h:intvector{1,2}n:table{binary{"00ff"}}v:array{:int{3}}}' > h.txt
told 0 '' '' compile --icu old/h.txt h.txt
told 1 '~ a {"alias":"/q"} (alias) -> {"alias":"/q"} (table)
~ h [1,2] (array) -> [1,2] (intvector)
~ n {"binary":"00ff"} (bin) -> {"binary":"00ff"} (table)
~ v [1] (intvector) -> [3] (array)' '' diff old/h.res h.res
told 1 '{"path":"a","old":{"alias":"/q"},"old_kind":"alias","new":{"alias":"/q"},"new_kind":"table"}
{"path":"h","old":[1,2],"old_kind":"array","new":[1,2],"new_kind":"intvector"}
{"path":"n","old":{"binary":"00ff"},"old_kind":"bin","new":{"binary":"00ff"},"new_kind":"table"}
{"path":"v","old":[1],"old_kind":"intvector","new":[3],"new_kind":"array"}' \
  '' diff --json old/h.res h.res
input=d.res
told 0 '' '' diff - d.res
input=
told 2 '' 'resb: one of the files alone can be standard input' diff - -
told 2 '' 'none.res: no such file' diff d.res none.res
told 2 '' 'resb: standard input is read once alone' check - -
# two numbers as roots; keys without characters; more than a limit; levels, and keys of paths
python3 -c "
import struct
def file(name, *words):
    head = bytes.fromhex('2000da27140000000000020052657342') + b'\2\0\0\0\1\4' + bytes(10)
    open(name, 'wb').write(head + struct.pack(f'<{len(words)}I', *words))
file('five.res', 0x70000005, 7, 8, 8, 8, 0, 0, 8)
file('six.res', 0x70000006, 7, 8, 8, 8, 0, 0, 8)
deep = [word for place in range(10, 8 + 2 * 200, 2) for word in (1, 0x80000000 + place)]
end = 10 + len(deep)
file('deep.res', 0x80000008, 7, 8, end, end, 0, 0, 8, *deep, 1, 0x70000005)
many = [500, *[0x01010101] * 125, 3, *[0x10000008] * 3]
file('many.res', 0x80000000 + 134, 7, 8, 8 + len(many), 8 + len(many), 0, 0, 8, *many)
"
told 1 '~ 5 -> 6' '' diff five.res six.res
told 1 '{"path":null,"old":5,"new":6}' '' diff --json five.res six.res
told 1 "~ $(printf '[%.0s' $(seq 200))5$(printf ']%.0s' $(seq 200)) -> 6" '' diff deep.res six.res
printf 'e{"":table{"":int{1} k:int{2}}}' > old/e.txt
printf 'e{"":table{"":int{3} k:int{4}}}' > e.txt
told 0 '' '' compile old/e.txt e.txt
told 1 $'~ // 1 -> 3\n~ //k 2 -> 4' '' diff old/e.res e.res
told 1 4 'e.res: nothing stands at /k' get e.res //k /k
key=$(printf 'k%.0s' {1..1000})
printf "k{$key:table{$(printf 'm%d:int{1} ' {0..9})}}" > old/k.txt
printf "k{$key:table{$(printf 'm%d:int{2} ' {0..9})}}" > k.txt
told 0 '' '' compile old/k.txt k.txt
told 2 '' 'k.res: its list of differences takes at least 9018 bytes, more than the limit of 9000' \
  diff --limit 9000 old/k.res k.res
# three places lead to one binary of 500 bytes, and each is compared
told 0 '' '' diff --limit 1500 many.res many.res
told 2 '' 'many.res: its binary data takes at least 1500 bytes, more than the limit of 1499' \
  diff --limit 1499 many.res many.res
# each of 200 levels counts
told 0 "$(printf '[%.0s' {1..200})5$(printf ']%.0s' {1..200})" '' dump --json --limit 73600 deep.res
over='deep.res: its depth takes at least 73600 bytes, more than the limit of 73599'
told 1 '' "$over" dump --json --limit 73599 deep.res
told 2 '' "$over" diff --limit 73599 deep.res six.res
printf 's{a{"x"}}' > s.txt
printf 't:table(nofallback){a{"x"}}' > t.txt
told 0 '' '' compile s.txt t.txt
told 0 '' '' diff s.res t.res
