#!/usr/bin/env bash
# The examples of the library for C, built and run: a bundle's text, a text that is none, bytes that
# are no UTF-8, a text over the limit, texts of ICU's form; files beside pool bundles; and offsets
# of zones. Then what each call that takes a file answers to one that is none. Where the library
# isn't built, `rt lib` builds it. A missing compiler is no failure.
# RATTLE_C is the folder of the toolchain's liblibc_c.a.
set -uo pipefail
top=$(cd "$(dirname "$(readlink -f "$0")")/.." && pwd)
kit=$(dirname "$(dirname "$(readlink -f "$(command -v rt)")")")
export RATTLE_C=${RATTLE_C:-$kit/c}
export RESB_LIB=$top/crates/resb_c/out
folder=$(mktemp -d)
trap 'rm -rf "$folder"' EXIT
passed=0
failed=0

# expect NAME STATUS ANSWER TEXT COMMAND..: the status and the answer of a command that reads TEXT
expect() {
  local name=$1 status=$2 answer=$3 text=$4 got got_status=0
  shift 4
  got=$(printf "$text" | "$@" 2>&1) || got_status=$?
  if [ "$got_status" = "$status" ] && [ "$got" = "$answer" ]; then
    passed=$((passed + 1))
  else
    failed=$((failed + 1))
    echo "FAIL $name: status $got_status, answer $got"
  fi
}

# rows LANGUAGE COMMAND..: the rows of a built example
rows() {
  local language=$1
  shift
  expect "$language: a bundle" 0 '80 bytes, 2 resources, 1 entries
bundle{
    b{"c"}
}' 'a { b { "c" } }' "$@"
  expect "$language: no bundle" 1 "2:3: fault 3: Parse error while reading text bundle:
at byte 6: expected '}'" 'a {\n  ' "$@"
  expect "$language: no UTF-8" 1 '1:2: fault 2: not UTF-8 from byte 1 on' 'a\377' "$@"
  expect "$language: over the limit" 1 \
    'fault 10: reading the text takes more bytes than the limit' \
    "a {$(printf 'k {%.0s' {1..9000})" "$@"
  expect "$language: a bundle of ICU's form" 0 '80 bytes, 2 resources, 1 entries
bundle{
    b{"\""}
}' 'a { b { "" "\\"" } } // of two pieces' "$@" --icu
  expect "$language: JSON" 0 '160 bytes, 8 resources, 5 entries
{"b":"c\td","list":["x","y"],"n":-5,"raw":{"binary":"01ff"},"v":[7,-2]}' \
    'a { v:intvector { 7, -2 } n:int { -5 } b { "c\td" } list { "x", "y" } raw:bin { 01ff } }' \
    "$@" --json
  expect "$language: no bundle of ICU's form" 1 \
    "1:10: fault 3: Parse error while reading ICU text:
at byte 9: expected a known escape" 'a { b { "\\x" } }' "$@" --icu
}

# warning_rows COMMAND..: the rows of what a text is warned of, in either form
warning_rows() {
  expect 'C: warnings' 0 'line 1, column 13: this number has more than 28 bits; 31564544 is kept
line 2, column 3: duplicate key, first at byte 4; genrb refuses that
80 bytes, 2 resources, 1 entries
bundle{
    n:int{1}
}' 'a { n:int { 300000000 }\n  n:int { 1 } }' "$@"
  expect 'C: a warning of ICU'"'"'s form' 0 \
    'line 3, column 1: this string is joined to the one before; a comma would part them
100 bytes, 5 resources, 1 entries
bundle{
    k:array{
        "x",
        "yz",
        "w",
    }
}' 'a { k { "x",\n"y"\n"z", "w" } }' "$@" --icu
}

# write_warned FILE: the program that asks what the text on standard input is warned of: in each
# form, of which there is none for JSON, by a short buffer, and within limits of the length and of
# one byte less. It prints each status with the length.
write_warned() {
  cat > "$1" << 'C'
#include "resb.h"

#include <stdio.h>

static uint8_t text[1000], out[1000];
static size_t text_length, length;
static resb_options options = RESB_OPTIONS;

static void ask(size_t room) {
  resb_error error;
  uint32_t status = resb_warnings(text, text_length, &options, out, room, &length, &error);
  printf("%s %zu; ", resb_status_name(status), length);
}

int main(void) {
  text_length = fread(text, 1, sizeof text, stdin);
  options.form = RESB_JSON;
  ask(sizeof out);
  options.form = RESB_ICU;
  ask(sizeof out);
  options.form = RESB_PLAIN;
  ask(sizeof out);
  if (length == 0) return 0;
  options.limit = length;
  ask(length);
  ask(length - 1);
  options.limit--;
  ask(sizeof out);
  return 0;
}
C
}

# warned_rows COMMAND..: the rows of that program, built: a text that is warned of, one that isn't,
# no text, and no UTF-8
warned_rows() {
  local none='RESB_BAD_OPTIONS 0; '
  expect 'C: warnings by options' 0 "${none}RESB_OK 0; RESB_OK 79; RESB_OK 79; RESB_TOO_SHORT 79; \
RESB_OVER_LIMIT 0; " 'a { k { "\\n" } }' "$@"
  expect 'C: no warnings' 0 "${none}RESB_OK 0; RESB_OK 0; " 'a { k { "n" } }' "$@"
  expect 'C: no warnings of nothing' 0 "${none}RESB_OK 0; RESB_OK 0; " '' "$@"
  expect 'C: no warnings of no UTF-8' 0 "${none}RESB_NOT_UTF8 0; RESB_NOT_UTF8 0; " 'a\377' "$@"
}

# write_swapped FILE: the program that compiles the text on standard input, and asks for the file in
# the other order by a short buffer and a long one, for what is said of that file, for the same file
# again, and for that of no file. It prints each status with the length, and whether the last is the
# first.
write_swapped() {
  cat > "$1" << 'C'
#include "resb.h"

#include <stdio.h>
#include <string.h>

static uint8_t text[1000], file[1000], big[1000], again[1000];
static size_t length;
static resb_error error;

static void note(uint32_t status) { printf("%s %zu; ", resb_status_name(status), length); }

int main(void) {
  resb_options options = RESB_OPTIONS;
  resb_measured measured;
  size_t count = fread(text, 1, sizeof text, stdin), size;
  note(resb_compile(text, count, &options, file, sizeof file, &length, &error));
  size = length;
  note(resb_swap(file, size, big, size - 1, &length, &error));
  note(resb_swap(file, size, big, sizeof big, &length, &error));
  note(resb_check(big, size, NULL, 0, &measured, &error));
  note(resb_swap(big, size, again, sizeof again, &length, &error));
  printf("%s; ", memcmp(file, again, size) == 0 ? "the same" : "another");
  note(resb_swap(file, 23, again, sizeof again, &length, &error));
  return 0;
}
C
}

# path_rows LANGUAGE COMMAND..: the rows of the built example that prints what stands at paths: a
# string, numbers, a key with a slash, a binary, what is none of these, the root with its keys, and
# nothing
path_rows() {
  local language=$1
  shift
  expect "$language: paths" 1 'c
-5
-2
d
01ff
intvector, size 2
table, size 5
  b
  list
  n
  raw
  x/y
fault 12
fault 12' \
    'a { b { "c" } n:int { -5 } list:intvector { 7, -2 } "x/y" { "d" } raw:bin { 01ff } }' \
    "$@" /b /n /list/1 '|x/y' /raw '#list' '' /d /list/2
}

# pool_rows COMMAND..: the rows of the built example that shows files beside pool bundles, which are
# those of `pools.py`, and a file of `hostile.py` whose tree is large
pool_rows() {
  python3 -B -c "
import sys
sys.path.insert(0, '$top/tests')
import hostile, pools
open('$folder/large.res', 'wb').write(hostile.of_strings(4000).data)
for name, words in (('pool', pools.POOL3), ('other', pools.POOL3.replace('e31610fa', 'e31610fb')),
                    ('a', pools.A3)):
    open(f'$folder/{name}.res', 'wb').write(pools.file(words))"
  expect 'C: over a pool' 0 '3 resources, 9 bytes of keys
bundle{
    alpha{"one two three"}
    beta{"x"}
}' '' "$@" "$folder/a.res" "$folder/pool.res"
  expect 'C: JSON over a pool' 0 '3 resources, 9 bytes of keys
{"alpha":"one two three","beta":"x"}' '' "$@" --json "$folder/a.res" "$folder/pool.res"
  expect 'C: JSON of a tree over the limit' 1 \
    'fault 10: the tree takes 1537360 bytes, more than the limit of 1000000
502 resources, 1 bytes of keys' '' "$@" --json "$folder/large.res"
  expect 'C: a tree over the limit' 1 \
    'fault 10: the tree takes 1537360 bytes, more than the limit of 1000000
502 resources, 1 bytes of keys' '' "$@" "$folder/large.res"
  expect 'C: no pool' 1 'fault 9: the file uses a pool bundle, and none was given' '' \
    "$@" "$folder/a.res"
  expect 'C: another pool' 1 \
    'fault 5: Invalid resource bundle data: pool bundle has another checksum' '' \
    "$@" "$folder/a.res" "$folder/other.res"
  expect 'C: a pool that is none' 1 \
    'fault 11: Invalid resource bundle data: file is not a pool bundle' '' \
    "$@" "$folder/a.res" "$folder/a.res"
}

# write_zones FILE: the file of a few zones, of which one has the wrong number of types. Their
# offsets are those of `zoneinfo_rows`.
write_zones() {
  cat > "$folder/zones.c" << 'C'
#include "resb.h"

#include <stdio.h>

static uint8_t text[4000], file[4000];

int main(void) {
  size_t text_length = fread(text, 1, sizeof text, stdin), length;
  resb_error error;
  const resb_options options = RESB_OPTIONS;
  uint32_t status = resb_compile(text, text_length, &options, file, sizeof file, &length, &error);
  fwrite(file, 1, length, stdout);
  return (int)status;
}
C
  cc -std=c99 -Wall -Wextra -Werror ${CFLAGS:-} -I "$top/include" "$folder/zones.c" \
    "$RESB_LIB/libresb_c.a" "$RATTLE_C/liblibc_c.a" -o "$folder/zones" || return 1
  "$folder/zones" > "$1" << 'T'
zoneinfo64:table(nofallback){
  TZVersion{"made"}
  Names{"A/Old","B/Link","C/Rule","Types",}
  Zones:array{
    :table{
      transPre32:intvector{4294967295,2147483647}
      trans:intvector{0,100}
      transPost32:intvector{1,0}
      typeMap:bin{"01000102"}
      typeOffsets:intvector{-100,0,3600,0,3600,1800}
    }
    :int{0}
    :table{
      typeOffsets:intvector{-100,0}
      finalRule{"EU"}
      finalRaw:int{3600}
      finalYear:int{1997}
    }
    :table{trans:intvector{0} typeOffsets:intvector{0,0}}
  }
  Rules{EU:intvector{2,-31,-1,3600,2,9,-31,-1,3600,2,3600}}
  Regions{"001",}
}
T
}

# zone_rows LANGUAGE COMMAND..: the rows of the built example that prints the offsets of a zone
zone_rows() {
  local language=$1
  shift
  expect "$language: a zone of transitions" 0 $'-100\n3600\n-100\n5400' '' \
    "$@" "$folder/zones.res" A/Old -2147483650 -2147483649 0 4294967296
  expect "$language: a zone of a rule, and a link" 0 $'3600\n7200\n7200\n3600' '' \
    "$@" "$folder/zones.res" C/Rule 1679792399 1679792400 1698541199 1698541200
  expect "$language: a linked zone" 0 '3600' '' "$@" "$folder/zones.res" B/Link 100
  expect "$language: no zone" 1 'fault 12: no zone has this name' '' \
    "$@" "$folder/zones.res" A/Older 0
  expect "$language: a zone with a fault" 1 \
    'fault 14: the zone has not as many transitions as types' '' "$@" "$folder/zones.res" Types 0
  expect "$language: no file of zones" 1 'fault 5: Unknown error: field missing' '' \
    "$@" "$folder/large.res" Types 0
  expect "$language: a file that lacks its pool" 1 \
    'fault 9: the file uses a pool bundle, and none was given' '' "$@" "$folder/a.res" Types 0
}

# offset_rows LANGUAGE COMMAND..: the rows of the built example that looks the offsets of a zone up
# by its transitions: those of `zone_rows`, where no rule is needed
offset_rows() {
  local language=$1
  shift
  expect "$language: transitions by hand" 0 $'-100\n3600\n-100\n5400' '' \
    "$@" "$folder/zones.res" A/Old -2147483650 -2147483649 0 4294967296
  expect "$language: a link by hand" 0 '3600' '' "$@" "$folder/zones.res" B/Link 100
  expect "$language: no zone by hand" 1 'fault 12' '' "$@" "$folder/zones.res" A/Older 0
  expect "$language: no file of zones by hand" 1 'fault 12' '' "$@" "$folder/large.res" Types 0
}

# walk_rows LANGUAGE COMMAND..: the rows of the built example that goes through a file: each kind,
# an array of two forms, an empty table, and a file that is none
walk_rows() {
  local language=$1
  shift
  "$folder/zones" > "$folder/walk.res" << 'T'
a {
  v:intvector { 7, -2 } n:int { -5 } b { "c\td" } list { "x", "y" } raw:bin { 01ff }
  many:array { :int { 1 } { "z" } :table { "a/b" { "" } } }
}
T
  expect "$language: a walk" 0 '13 resources
table
  b: string c\td
  list: array
    string x
    string y
  many: array
    int 1
    string z
    table
      a/b: string 
  n: int -5
  raw: bin 01ff
  v: intvector 7 4294967294' '' "$@" "$folder/walk.res"
  expect "$language: no walk without the pool" 1 \
    'fault 9: the file uses a pool bundle, and none was given' '' "$@" "$folder/a.res"
}

# write_ordered FILE: the program that looks three keys up, and one that isn't there: in a file
# whose keys ascend, which is halved, in one in which the first and the last of them changed places,
# and in one in which the first stands in the place of the last too.
write_ordered() {
  cat > "$1" << 'C'
#include "resb.h"

#include <stdio.h>
#include <string.h>

static const uint8_t text[] = "b{a{\"1\"}b{\"2\"}c{\"3\"}}";
static const uint8_t places[] = {3, 0, 32, 0, 34, 0, 36, 0};

static void look(const uint8_t *file, size_t length) {
  resb_error error;
  resb_opened opened;
  resb_resource value;
  unsigned status = (unsigned)resb_open(file, length, file, 0, &opened, &error);
  printf("%u %u:", status, opened.ascends);
  for (const char *key = "abcd"; *key; key++) {
    uint8_t found[2] = "-";
    size_t found_length;
    if (resb_value(&opened, opened.root, (const uint8_t *)key, 1, &value) == RESB_OK)
      resb_string_of(&opened, value, found, 1, &found_length);
    printf(" %s", (const char *)found);
  }
  printf("\n");
}

int main(void) {
  uint8_t file[400];
  size_t length, at = 0;
  resb_error error;
  const resb_options options = RESB_OPTIONS;
  if (resb_compile(text, sizeof text - 1, &options, file, sizeof file, &length, &error) != RESB_OK)
    return 1;
  look(file, length);
  while (memcmp(file + at, places, sizeof places) != 0) at++;
  file[at + 2] = 36;
  file[at + 6] = 32;
  look(file, length);
  file[at + 2] = 32;
  look(file, length);
  return 0;
}
C
}

# write_statuses FILE: the program that asks each call that takes a file about the bytes of standard
# input: check, open and a zone, and dump in each form, beside no pool bundle and where these bytes
# are the pool too; and dump by options that are of another size, or have no such form. It prints
# each status and each message, once where calls in a row say the same.
write_statuses() {
  cat > "$1" << 'C'
#include "resb.h"

#include <stdio.h>
#include <string.h>

static uint8_t bytes[1000], out[1000], said[256];
static const uint8_t name[] = "b";
static resb_error error;

/* Prints the status of a call, and its message where that is another than the last one. */
static void note(uint32_t status) {
  printf("%u ", (unsigned)status);
  if (memcmp(said, error.message, sizeof said) != 0) printf("%s; ", (const char *)error.message);
  memcpy(said, error.message, sizeof said);
}

int main(void) {
  size_t length = fread(bytes, 1, sizeof bytes, stdin);
  size_t number;
  resb_measured measured;
  resb_opened opened;
  resb_options options = RESB_OPTIONS;
  int64_t offset;
  if (resb_version() != RESB_VERSION) return 1;
  note(resb_zone_offset(bytes, length, name, 1, 0, &offset, &error));
  options.pool = bytes;
  for (size_t pools = 0; pools < 2; pools++) {
    options.pool_length = pools * length;
    note(resb_check(bytes, length, bytes, options.pool_length, &measured, &error));
    note(resb_open(bytes, length, bytes, options.pool_length, &opened, &error));
    for (options.form = RESB_PLAIN; options.form <= RESB_JSON; options.form++)
      note(resb_dump(bytes, length, &options, out, sizeof out, &number, &error));
  }
  note(resb_dump(bytes, length, &options, out, sizeof out, &number, &error));
  options.form = RESB_PLAIN;
  options.size--;
  note(resb_dump(bytes, length, &options, out, sizeof out, &number, &error));
  return 0;
}
C
}

# write_any FILE: the program that hands any resources in: it opens the file of standard input, and
# asks each call about a hundred thousand resources by their numbers, of which few stand in the
# file. It says how many of the parts that it was given lie outside the file, and that a file which
# was not opened has nothing.
write_any() {
  cat > "$1" << 'C'
#include "resb.h"

#include <stdio.h>
#include <string.h>

static uint8_t file[200000], out[200000];
static size_t length, outside;
static resb_opened opened;

/* Counts a part that lies outside the file. */
static void note(uint32_t status, resb_bytes part) {
  if (status == RESB_OK && part.length > 0 &&
      (part.bytes < file || part.length > length ||
       (size_t)(part.bytes - file) > length - part.length))
    outside++;
}

/* Asks each call about a resource, whose members have numbers like this. */
static void ask(resb_resource resource, size_t number) {
  resb_resource found;
  resb_bytes part;
  uint32_t kind, value;
  int32_t integer;
  size_t size;
  resb_kind_of(&opened, resource, &kind, &size);
  resb_find(&opened, resource, (const uint8_t *)"/0/a", 4, &found);
  resb_value(&opened, resource, (const uint8_t *)"b", 1, &found);
  resb_member(&opened, resource, number, &found);
  resb_integer_of(&opened, resource, &integer);
  resb_unsigned_of(&opened, resource, &value);
  if (resb_string_of(&opened, resource, out, sizeof out, &size) == RESB_OK && size > sizeof out)
    outside++;
  note(resb_key_of(&opened, resource, number, &part), part);
  note(resb_utf16_of(&opened, resource, &part), part);
  note(resb_bytes_of(&opened, resource, &part), part);
  note(resb_vector_of(&opened, resource, &part), part);
}

int main(void) {
  resb_error error;
  resb_resource resource;
  uint32_t random = 1, status;
  length = fread(file, 1, sizeof file, stdin);
  memset(&opened, 0xff, sizeof opened);
  status = resb_open(file, length, file, 0, &opened, &error);
  for (size_t count = 0; count < 100000; count++) {
    random = random * 1664525 + 1013904223;
    resource.form = (random >> 8) % 4;
    random = random * 1664525 + 1013904223;
    /* any type, and a small number most times */
    resource.number = count % 4 == 0 ? random : (random & 0xf0000000u) | (random >> 8) % 500;
    ask(resource, count % 7);
  }
  printf("%u: %zu resources, %zu parts outside\n", (unsigned)status, opened.count, outside);
  return 0;
}
C
}

# any_rows COMMAND..: the rows of that program, built: a file, the same without its end, and none
any_rows() {
  expect 'C: any resources' 0 '0: 13 resources, 0 parts outside' '' \
    bash -c '"$0" < "$1"' "$1" "$folder/walk.res"
  expect 'C: any resources of a file without its end' 0 '5: 0 resources, 0 parts outside' '' \
    bash -c 'head -c 100 "$1" | "$0"' "$1" "$folder/walk.res"
  expect 'C: any resources of no file' 0 '5: 0 resources, 0 parts outside' 'ab' "$1"
}

# status_rows COMMAND..: the rows of that program, built: a header of 24 bytes, and no body. What
# the header says is looked at first: characters of 16 bytes are not supported.
status_rows() {
  local front='\030\000\332\047\024\000\000\000\000\000'
  local back='\000ResB\002\000\000\000\001\004\000\000'
  local size='characters of size other than 2 are not supported'
  local end='Invalid resource bundle data: unexpected end of input'
  local alone=' 6 6 6 6 6 ' pools='11 11 11 11 11 '
  local options='15 the options are of another size or have no such form; 15 '
  expect 'C: characters of another size' 0 \
    "6 Unsupported resource bundle format: $size;${alone}$pools$options" "$front\020$back" "$@"
  expect 'C: no body' 0 "5 $end;${alone//6/5}$pools$options" "$front\002$back" "$@"
}

# built NAME COMMAND..: whether the example is built, which counts only where it fails
built() {
  local name=$1
  shift
  if ! "$@" > "$folder/log" 2>&1; then
    failed=$((failed + 1))
    echo "FAIL $name isn't built"
    cat "$folder/log"
    return 1
  fi
}

if [ ! -e "$RESB_LIB/libresb_c.a" ]; then
  built resb_c bash -c "cd '$top/crates/resb_c' && rt lib"
fi
if command -v cc > /dev/null; then
  built 'the C example' cc -std=c99 -Wall -Wextra -Werror -O2 ${CFLAGS:-} -I "$top/include" \
    "$top/examples/c/compile.c" "$RESB_LIB/libresb_c.a" "$RATTLE_C/liblibc_c.a" \
    -o "$folder/compile" && rows C "$folder/compile" && warning_rows "$folder/compile"
  built 'the C example of pools' cc -std=c99 -Wall -Wextra -Werror -O2 ${CFLAGS:-} \
    -I "$top/include" "$top/examples/c/show.c" "$RESB_LIB/libresb_c.a" "$RATTLE_C/liblibc_c.a" \
    -o "$folder/show" && pool_rows "$folder/show"
  built 'the C example of paths' cc -std=c99 -Wall -Wextra -Werror -O2 ${CFLAGS:-} \
    -I "$top/include" "$top/examples/c/get.c" "$RESB_LIB/libresb_c.a" "$RATTLE_C/liblibc_c.a" \
    -o "$folder/get" && path_rows C "$folder/get"
  built 'the file of zones' write_zones "$folder/zones.res"
  built 'the C example of zones' cc -std=c99 -Wall -Wextra -Werror -O2 ${CFLAGS:-} \
    -I "$top/include" "$top/examples/c/zone.c" "$RESB_LIB/libresb_c.a" "$RATTLE_C/liblibc_c.a" \
    -o "$folder/zone" && zone_rows C "$folder/zone"
  built 'the C example of offsets' cc -std=c99 -Wall -Wextra -Werror -O2 ${CFLAGS:-} \
    -I "$top/include" "$top/examples/c/offset.c" "$RESB_LIB/libresb_c.a" \
    "$RATTLE_C/liblibc_c.a" -o "$folder/offset" && offset_rows C "$folder/offset"
  built 'the C example of a walk' cc -std=c99 -Wall -Wextra -Werror -O2 ${CFLAGS:-} \
    -I "$top/include" "$top/examples/c/walk.c" "$RESB_LIB/libresb_c.a" "$RATTLE_C/liblibc_c.a" \
    -o "$folder/walk" && walk_rows C "$folder/walk" &&
    expect 'C: a walk over a pool' 0 '3 resources
table
  alpha: string one two three
  beta: string x' '' "$folder/walk" "$folder/a.res" "$folder/pool.res"
  write_warned "$folder/warned.c"
  built 'the program of warnings' cc -std=c99 -Wall -Wextra -Werror -O2 ${CFLAGS:-} \
    -I "$top/include" "$folder/warned.c" "$RESB_LIB/libresb_c.a" "$RATTLE_C/liblibc_c.a" \
    -o "$folder/warned" && warned_rows "$folder/warned"
  write_swapped "$folder/swapped.c"
  built 'the program of orders' cc -std=c99 -Wall -Wextra -Werror -O2 ${CFLAGS:-} \
    -I "$top/include" "$folder/swapped.c" "$RESB_LIB/libresb_c.a" "$RATTLE_C/liblibc_c.a" \
    -o "$folder/swapped" && expect 'C: the other order of bytes, and back' 0 \
    'RESB_OK 80; RESB_TOO_SHORT 80; RESB_OK 80; RESB_UNSUPPORTED 80; RESB_OK 80; the same; '\
'RESB_NOT_A_FILE 0; ' 'a { b { "c" } }' "$folder/swapped"
  write_any "$folder/any.c"
  built 'the program of any resources' cc -std=c99 -Wall -Wextra -Werror -O2 ${CFLAGS:-} \
    -I "$top/include" "$folder/any.c" "$RESB_LIB/libresb_c.a" "$RATTLE_C/liblibc_c.a" \
    -o "$folder/any" && any_rows "$folder/any"
  write_ordered "$folder/ordered.c"
  built 'the program of ordered keys' cc -std=c99 -Wall -Wextra -Werror -O2 ${CFLAGS:-} \
    -I "$top/include" "$folder/ordered.c" "$RESB_LIB/libresb_c.a" "$RATTLE_C/liblibc_c.a" \
    -o "$folder/ordered" && expect 'C: keys in order and not' 0 '0 1: 1 2 3 -
0 0: 3 2 1 -
0 0: 3 2 - -' '' "$folder/ordered"
  write_statuses "$folder/statuses.c"
  built 'the program of statuses' cc -std=c99 -Wall -Wextra -Werror -O2 ${CFLAGS:-} \
    -I "$top/include" "$folder/statuses.c" "$RESB_LIB/libresb_c.a" "$RATTLE_C/liblibc_c.a" \
    -o "$folder/statuses" && status_rows "$folder/statuses"
fi
if command -v cargo > /dev/null; then
  built 'the Rust example' cargo build --quiet --offline --manifest-path \
    "$top/examples/rust/Cargo.toml" --target-dir "$folder/target" &&
    rows Rust "$folder/target/debug/resb_example" &&
    path_rows Rust "$folder/target/debug/resb_example" &&
    zone_rows Rust "$folder/target/debug/resb_example" --zone &&
    offset_rows Rust "$folder/target/debug/resb_example" --offset &&
    walk_rows Rust "$folder/target/debug/resb_example" --walk
fi
echo "$passed passed, $failed failed"
[ "$failed" = 0 ]
