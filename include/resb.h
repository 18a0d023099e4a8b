/* resb.h: ICU resource bundles, from a text to a .res file and back, checks of such files, what
 * stands in them, and the offsets of time zones.
 *
 * It is for strangers' texts and files: whatever bytes they have, a call stays inside its buffers,
 * ends, and says what is wrong with them.
 *
 * Where it was installed by `./prove c --to PREFIX`, `pkg-config --cflags --libs resb` prints the
 * words for the compiler. They link with the shared library, or, with -static, with the archive
 * libresb.a. By hand link with libresb_c.a and with the toolchain's liblibc_c.a, in this order.
 *
 * Texts, names and paths are UTF-8 of a given length, without a zero at their end, and may hold
 * zeros: they are uint8_t, as all bytes here are, and not char. A char pointer is cast.
 *
 * Nothing is allocated for the caller, so there is nothing to free. A call asks malloc for memory
 * of its own, and frees it before it returns. There are no globals: calls with buffers of their own
 * may run side by side. No call may be made from a signal handler.
 *
 * What the caller owes, since no contract can rule it out:
 *   - no pointer is null, also where its length is 0;
 *   - each pointer leads to as many bytes as its length says, and those of an input are
 *     initialized;
 *   - what a call writes overlaps nothing else that it is given: the buffer, the number and the
 *     error are apart from each other and from the input;
 *   - an input doesn't change while the call runs.
 *
 * To ask how long an answer is, pass a length of 0 with any pointer that isn't null: the call does
 * its whole work, and answers RESB_TOO_SHORT, or RESB_OK where the answer is empty, as an empty
 * string is.
 *
 * A file that is looked into is opened: resb_open checks it as a whole, and what comes after goes
 * from resource to resource without another check. */
#ifndef RESB_H
#define RESB_H

#include <stddef.h>
#include <stdint.h>

#ifdef __cplusplus
extern "C" {
#endif

/* The version of this header. It grows where a call, an answer, a kind or a field is added. */
#define RESB_VERSION 7u

/* The version of the header that the library was built with. */
uint32_t resb_version(void);

/* What a call answers. */
#define RESB_OK 0u
/* The buffer is too short: nothing was written to it, and *length is the length that is needed. */
#define RESB_TOO_SHORT 1u
/* The text, the name of a dump or of a zone, or a path is not UTF-8 from the error's place on. */
#define RESB_NOT_UTF8 2u
/* The text is no bundle: it can't be read on at the error's place. */
#define RESB_NOT_A_BUNDLE 3u
/* The text is a bundle, but its tree has no file: a key holds U+0000, or a key, a string or a count
 * is over what the format holds. */
#define RESB_NO_FILE 4u
/* The bytes are no file of a bundle, or, where a zone is asked for, none of zones. */
#define RESB_NOT_A_FILE 5u
/* The file has version 1.0 of the format, characters of another size than 2 bytes, EBCDIC, or the
 * other order of bytes: resb_swap makes a little-endian one of it. Versions 1.1, 1.2, 1.3, 2.0 and
 * 3.0 are read by each call, with their aliases. A version or a format that isn't known at all is
 * RESB_NOT_A_FILE. */
#define RESB_UNSUPPORTED 6u
/* The file's tree has no text: its root is no table, it has an alias, or a name, key or string
 * holds a '"'. In ICU's form: its root is no table, its name is no word, or a key has a character
 * that may not stand in one. */
#define RESB_NOT_PRINTABLE 7u
/* A request for memory was refused. The input may be sound. */
#define RESB_NO_MEMORY 8u
/* The file uses a pool bundle, and none was given. */
#define RESB_USES_POOL 9u
/* The file's tree, the keys of its entries, its text or JSON, what reading a text makes, or the
 * lines of warnings would take more bytes than the limit. Of a tree and of keys the message says
 * how many. */
#define RESB_OVER_LIMIT 10u
/* The bytes that were given as a pool bundle are none. */
#define RESB_NOT_A_POOL 11u
/* Nothing stands at the path, or no zone has the name. */
#define RESB_NOT_FOUND 12u
/* What stands at the path is of another kind. */
#define RESB_OTHER_KIND 13u
/* The zone has a fault, which the message names: its link leads nowhere, its numbers don't fit each
 * other, or its final rule is none. */
#define RESB_NOT_A_ZONE 14u
/* The options have another size than sizeof(resb_options), or a form that the call hasn't. */
#define RESB_BAD_OPTIONS 15u

/* The name of an answer, as "RESB_OK", for messages and logs; "RESB_UNKNOWN" for a number that this
 * header has none for. The header alone has it: it's no call of the library. */
static inline const char *resb_status_name(uint32_t status) {
  static const char *const names[] = {
      "RESB_OK",        "RESB_TOO_SHORT",   "RESB_NOT_UTF8",  "RESB_NOT_A_BUNDLE",
      "RESB_NO_FILE",   "RESB_NOT_A_FILE",  "RESB_UNSUPPORTED", "RESB_NOT_PRINTABLE",
      "RESB_NO_MEMORY", "RESB_USES_POOL",   "RESB_OVER_LIMIT", "RESB_NOT_A_POOL",
      "RESB_NOT_FOUND", "RESB_OTHER_KIND",  "RESB_NOT_A_ZONE", "RESB_BAD_OPTIONS"};
  return status < sizeof names / sizeof *names ? names[status] : "RESB_UNKNOWN";
}

/* Why a call failed. Each call writes all of it: after RESB_OK it holds zeros alone. */
typedef struct resb_error {
  /* what the call answered */
  uint32_t kind;
  /* for RESB_NOT_UTF8 and RESB_NOT_A_BUNDLE a byte of the text, of a name or of a path, counted
   * from 0; else 0 */
  size_t place;
  /* what went wrong, in English, perhaps in several lines, cut at 255 bytes wherever that is, and
   * zero bytes behind it; empty where memory is wanted for it */
  uint8_t message[256];
} resb_error;

/* The forms of a text that is read or written. */
/* the plain form, which the Rust crate resb reads */
#define RESB_PLAIN 0u
/* ICU's own form, which genrb reads; docs/ICU_TEXTS.md says what it is */
#define RESB_ICU 1u
/* JSON, which is written and not read */
#define RESB_JSON 2u

/* What is wanted of resb_compile, resb_warnings and resb_dump. Begin with RESB_OPTIONS, and set
 * what you want:
 *
 *   resb_options options = RESB_OPTIONS;
 *   options.form = RESB_ICU;
 *   options.limit = 1000000;
 */
typedef struct resb_options {
  /* sizeof(resb_options), which RESB_OPTIONS sets */
  size_t size;
  /* RESB_PLAIN, RESB_ICU, or, for resb_dump, RESB_JSON */
  uint32_t form;
  /* for resb_compile: not 0 for a compact file, which has genrb's bytes */
  uint32_t compact;
  /* the most bytes that the call may make, as it says; 0 sets no limit */
  uint64_t limit;
  /* a pool bundle of pool_length bytes, pool.res of ICU's data, from which files of the same data
   * take keys and strings; a length of 0 says that there is none. The call looks at the pool before
   * the file, also for a file that uses none, and keeps nothing of it. */
  const uint8_t *pool;
  size_t pool_length;
  /* for resb_dump: the bundle's name, which is UTF-8; JSON has no name */
  const uint8_t *name;
  size_t name_length;
} resb_options;

/* The plain form, no limit, no pool bundle, and an empty name. */
#define RESB_OPTIONS                                                                       \
  {                                                                                        \
    sizeof(resb_options), RESB_PLAIN, 0, 0, (const uint8_t *)"", 0, (const uint8_t *)"", 0 \
  }

/* Compiles a bundle's text, which is UTF-8 of text_length bytes and needs no zero at its end. With
 * a pool bundle the file leaves out what the pool has, and is read beside it.
 *
 * A stranger's text is compiled within a limit: a text is refused by RESB_OVER_LIMIT whose reading
 * would take more bytes of memory. In the plain form 88 are counted for each group, 112 for each
 * string among items, keys too, 64 for each table that has entries, 3 for each byte of a string, 1
 * for each byte of a binary, 8 for each number of a vector, and 32 for each binary and vector. In
 * ICU's form 88 are counted for each resource, 112 for each entry, 64 for each table that has
 * entries, 3 for each byte of a key, a string, a path or a binary, 8 for each number of a vector,
 * 32 for each binary and vector, and, for each string that is put together or is that of :string or
 * :alias, 32 and 1 for each of its bytes. The reading stops before the step by which there would be
 * more. What the file takes beside that is not within the limit.
 *
 * RESB_OK: the file is the first *length bytes of out, and the bytes behind it are as they were.
 * RESB_TOO_SHORT: out is as it was, and *length is the length of the file. Call again.
 * Else out is as it was, and *length is 0: RESB_BAD_OPTIONS, RESB_NOT_UTF8, RESB_NOT_A_POOL,
 * RESB_NOT_A_BUNDLE, RESB_NO_FILE, RESB_OVER_LIMIT, RESB_NO_MEMORY. */
uint32_t resb_compile(const uint8_t *text, size_t text_length, const resb_options *options,
                      uint8_t *out, size_t out_length, size_t *length, resb_error *error);

/* Tells what may not be meant in a text of the options' form, in the words of `resb compile`: most
 * of it is taken otherwise by ICU's genrb. Nothing is compiled, and where resb_compile refuses the
 * text, what is told says little. It is UTF-8, a line for each warning in the order of places, with
 * a line feed at its end:
 *
 *   line 3, column 12: this number has more than 28 bits; 31564544 is kept
 *
 * Within a limit lines that have more bytes are refused. What the call uses beside them is not
 * within it, and is in proportion to the text. Of the options the form and the limit alone are
 * looked at.
 *
 * RESB_OK: the lines are the first *length bytes of out, and the bytes behind them are as they
 * were; *length is 0 where there is nothing to warn of. RESB_TOO_SHORT: out is as it was, and
 * *length is the length of the lines. Else out is as it was, and *length is 0: RESB_BAD_OPTIONS,
 * RESB_NOT_UTF8, RESB_OVER_LIMIT, RESB_NO_MEMORY. */
uint32_t resb_warnings(const uint8_t *text, size_t text_length, const resb_options *options,
                       uint8_t *out, size_t out_length, size_t *length, resb_error *error);

/* Writes the line and the column of a place of a text, such as that of a resb_error, or of the
 * text's end if that comes first. Both count from 1; a column is a character of UTF-8. */
void resb_location(const uint8_t *text, size_t text_length, size_t place, size_t *line,
                   size_t *column);

/* Writes a file, or a pool bundle, in the other order of bytes: a little-endian one as ICU for Java
 * reads it, or a big-endian one as the calls below read it. They take little-endian files alone, so
 * a file whose byte 8 is 1 goes through this call first. Swapped twice it is as it was.
 *
 * RESB_OK: the file is the first *length bytes of out, as many as it had, and the bytes behind it
 * are as they were. RESB_TOO_SHORT: out is as it was, and *length is file_length. Else out is as it
 * was, and *length is 0: RESB_NOT_A_FILE, also where a resource lies outside the file or inside
 * another one, RESB_UNSUPPORTED, RESB_NO_MEMORY. */
uint32_t resb_swap(const uint8_t *file, size_t file_length, uint8_t *out, size_t out_length,
                   size_t *length, resb_error *error);

/* What a file's tree adds up to; entries that are replaced count too. A sum that does not fit is
 * UINT64_MAX. */
typedef struct resb_measured {
  /* the resources, the root included */
  size_t resources;
  /* the tables that have entries, and the entries of all tables */
  uint64_t tables;
  uint64_t entries;
  /* the bytes of the entries' keys, the UTF-8 bytes of the strings, the bytes of the binaries */
  uint64_t key_bytes;
  uint64_t text_bytes;
  uint64_t binary_bytes;
  /* the numbers of the vectors */
  uint64_t numbers;
  /* the bytes that the tree takes in memory: 72 for each resource, 1024 for each table that has
   * entries, 192 for each entry, 3 for each byte of a string, 4 for each number of a vector */
  uint64_t tree_bytes;
} resb_measured;

/* Checks a file as a whole, beside a pool bundle of pool_length bytes, and makes no tree. A length
 * of 0 says that there is none. The pool is looked at before the file, and nothing of it is kept.
 *
 * RESB_OK: measured has the sums of the file's tree, those of what it takes from the pool included.
 * Else each of them is 0: RESB_NOT_A_POOL, RESB_NOT_A_FILE, also for a file that uses another pool
 * bundle, RESB_UNSUPPORTED, RESB_USES_POOL, RESB_NO_MEMORY. */
uint32_t resb_check(const uint8_t *file, size_t file_length, const uint8_t *pool,
                    size_t pool_length, resb_measured *measured, resb_error *error);

/* Prints a file's tree as the text of a bundle of the options' name, or as JSON, beside their pool
 * bundle. Within a limit a tree that takes more bytes, as tree_bytes counts them, or whose entries
 * have more bytes of keys (key_bytes), is refused before it is made, by RESB_OVER_LIMIT, and so is
 * a text of more bytes. Tree and text are each within the limit, but for one line of the text; what
 * the call uses beside them is not.
 *
 * JSON has no blanks and no line feed at its end. A table is an object, whose members stand in the
 * order of their keys' bytes; an array and a vector are arrays; a string is a string, and a number
 * stands with its sign. Other kinds are objects of one member: a binary is {"binary":"00ff"}, with
 * two hex digits for each byte, and an alias {"alias":"/a/b"}, with its path as it stands. The name
 * of the bundle and its fallback flag are not in it. Each tree has its JSON.
 *
 * RESB_OK: the text is the first *length bytes of out, with no zero behind it, and the bytes behind
 * it are as they were. RESB_TOO_SHORT: out is as it was, and *length is the length of the text.
 * Else out is as it was, and *length is 0: RESB_BAD_OPTIONS, RESB_NOT_UTF8 for the name, the
 * reasons of resb_check, RESB_OVER_LIMIT, RESB_NOT_PRINTABLE. */
uint32_t resb_dump(const uint8_t *file, size_t file_length, const resb_options *options,
                   uint8_t *out, size_t out_length, size_t *length, resb_error *error);

/* The kinds of resources. */
#define RESB_STRING 1u
#define RESB_TABLE 2u
#define RESB_ARRAY 3u
/* a number of 28 bits, or one of a vector, of 32 bits */
#define RESB_INTEGER 4u
#define RESB_VECTOR 5u
#define RESB_BINARY 6u
#define RESB_ALIAS 7u

/* The name of a kind, that of its type in a text of ICU's form, or "unknown" for another number.
 * The header alone has it: it's no call of the library. */
static inline const char *resb_kind_name(uint32_t kind) {
  static const char *const names[] = {"unknown", "string",    "table", "array",
                                      "int",     "intvector", "bin",   "alias"};
  return names[kind < sizeof names / sizeof names[0] ? kind : 0];
}

/* Files that are opened. resb_open checks a file once, and leaves what it learned in a struct of
 * the caller's. The calls that take this struct look at nothing but what they are asked for, and
 * ask for no memory, but for resb_find and resb_string_of. They answer by a status alone.
 *
 * The file and the pool bundle stay the caller's, and have to stay as they are while the struct is
 * in use. The struct may be copied, and any number of threads may use it at a time. It is the
 * library's: what the caller owes of it is that it is one that resb_open wrote, since its parts
 * lead into the file's bytes. Where that call failed, no file stands in it, and it may be handed on
 * all the same.
 *
 * A resource that is handed in may be any: one that did not come from this file is answered
 * somehow, perhaps by RESB_NOT_A_FILE or by RESB_UNSUPPORTED, and nothing is read outside the
 * file. */

/* Bytes that lie in the file, or in the pool bundle beside it. They are the caller's own, and stay
 * as long as these do. Where there are none, the pointer isn't null all the same. */
typedef struct resb_bytes {
  const uint8_t *bytes;
  size_t length;
} resb_bytes;

/* A resource of a file, or a number of a vector: what a call has found. What its numbers say is the
 * library's. They hold for the file in which it was found, in each run. */
typedef struct resb_resource {
  uint32_t form;
  uint32_t number;
} resb_resource;

/* A file that was opened. */
typedef struct resb_opened {
  /* the root of its tree */
  resb_resource root;
  /* the resources of its tree, the root included */
  size_t count;
  /* the library's own */
  resb_bytes parts[5];
  uint32_t limit;
  uint16_t short_limit;
  uint16_t ascends;
} resb_opened;

/* Opens a file beside a pool bundle of pool_length bytes; a length of 0 says that there is none. It
 * is checked as a whole, as resb_check does. No tree is made, so it needs no limit: a file of n
 * bytes has at most n / 2 resources. Strings may be shared: before you go through all of them, ask
 * resb_check for what they add up to.
 *
 * RESB_OK: *opened is the file. Else its count is 0 and its root an empty string, for the reasons
 * of resb_check. */
uint32_t resb_open(const uint8_t *file, size_t file_length, const uint8_t *pool,
                   size_t pool_length, resb_opened *opened, resb_error *error);

/* Finds what stands at a path from a resource on.
 *
 * A path is UTF-8 of path_length bytes. The empty path leads to the resource itself. Any other is
 * names with a slash between two, and one slash may stand first: "names/greeting" and
 * "/names/greeting" say the same. Begin a path that isn't your own with a slash: another ASCII
 * character that stands first and is no letter, no digit, '%' or '_' takes the slash's place, as in
 * "|a/b|c", which has a name with a slash. The program's `resb get` has '~1' for such a slash. A
 * name leads into a table, to the last entry of that name, and a number from 0 into an
 * array or a vector, such as "list/0". An alias is not followed, and nothing lies inside a number.
 *
 * RESB_OK: *found is what stands there. Else it is a RESB_INTEGER, 0: RESB_NOT_FOUND, RESB_NOT_UTF8
 * for the path, RESB_NO_MEMORY for its names. */
uint32_t resb_find(const resb_opened *opened, resb_resource from, const uint8_t *path,
                   size_t path_length, resb_resource *found);

/* Finds what has a number, from 0 up to the size that resb_kind_of tells: the member of an array,
 * the value of an entry of a table, as they stand in the file, or the number of a vector.
 *
 * RESB_OK: *member is that. Else it is a RESB_INTEGER, 0: RESB_NOT_FOUND where there are not so
 * many, RESB_OTHER_KIND where the resource is neither an array nor a table nor a vector. */
uint32_t resb_member(const resb_opened *opened, resb_resource resource, size_t number,
                     resb_resource *member);

/* Finds the value that a table has at a key, which is UTF-8 of key_length bytes: that of the last
 * entry of the key. Entries are halved where resb_open found that the keys of all tables ascend, as
 * in files of ICU and of resb_compile, and else gone through; so they are by resb_find. Of keys it
 * looks at no more than 16 bytes for each byte of the file.
 *
 * RESB_OK: *value is that. Else it is a RESB_INTEGER, 0: RESB_NOT_FOUND where the table has no such
 * entry, RESB_OTHER_KIND where the resource is no table, RESB_NOT_UTF8 for the key. */
uint32_t resb_value(const resb_opened *opened, resb_resource resource, const uint8_t *key,
                    size_t key_length, resb_resource *value);

/* Tells the key of an entry of a table. Entries have numbers from 0 up to the size that
 * resb_kind_of tells, as for resb_member, so that a table is gone through by the two calls.
 *
 * RESB_OK: *key is the key, as UTF-8. Else there are no bytes: RESB_NOT_FOUND where the table has
 * no such entry, RESB_OTHER_KIND where the resource is no table. */
uint32_t resb_key_of(const resb_opened *opened, resb_resource resource, size_t number,
                     resb_bytes *key);

/* Tells which kind a resource has, and how much is in it. It doesn't fail for a resource of the
 * file.
 *
 * RESB_OK: *kind is one of the kinds above. *size is the number of a table's entries, those that
 * are replaced included, of an array's members, of a vector's numbers, or of a binary's bytes; for
 * any other kind it is 0. Else both are 0. */
uint32_t resb_kind_of(const resb_opened *opened, resb_resource resource, uint32_t *kind,
                      size_t *size);

/* Tells the number of a RESB_INTEGER with its sign: its highest bit, of 28, or of 32 in a vector.
 *
 * RESB_OK: *value is the number. Else it is 0: RESB_OTHER_KIND. */
uint32_t resb_integer_of(const resb_opened *opened, resb_resource resource, int32_t *value);

/* Tells the number of a RESB_INTEGER without a sign: less than 2^28, or in a vector than 2^32.
 *
 * RESB_OK: *value is the number. Else it is 0: RESB_OTHER_KIND. */
uint32_t resb_unsigned_of(const resb_opened *opened, resb_resource resource, uint32_t *value);

/* Copies the text of a string, as UTF-8 without a zero at its end.
 *
 * RESB_OK: the text is the first *length bytes of out, and the bytes behind it are as they were.
 * RESB_TOO_SHORT: out is as it was, and *length is the length of the text. Else out is as it was,
 * and *length is 0: RESB_OTHER_KIND, RESB_NO_MEMORY. */
uint32_t resb_string_of(const resb_opened *opened, resb_resource resource, uint8_t *out,
                        size_t out_length, size_t *length);

/* Tells where the text of a string lies in the file, or in the pool bundle, as UTF-16: two bytes
 * for each unit, the lower one first. It is well-formed.
 *
 * RESB_OK: *units are those bytes. Else there are none: RESB_OTHER_KIND. */
uint32_t resb_utf16_of(const resb_opened *opened, resb_resource resource, resb_bytes *units);

/* Tells where the bytes of a binary lie in the file.
 *
 * RESB_OK: *bytes are those. Else there are none: RESB_OTHER_KIND. */
uint32_t resb_bytes_of(const resb_opened *opened, resb_resource resource, resb_bytes *bytes);

/* Tells where the numbers of a vector lie in the file: four bytes for each, the lowest one first.
 * They begin a multiple of 4 bytes behind the file's header. Each file of ICU and of resb_compile
 * has a header of a multiple of 4 bytes, so that they may be read in place by a machine of that
 * order of bytes where the file's first byte is aligned to 4. A stranger's header may have any
 * length: there resb_number reads them, which asks for no alignment, and for no order of bytes.
 *
 * RESB_OK: *numbers are those bytes. Else there are none: RESB_OTHER_KIND. */
uint32_t resb_vector_of(const resb_opened *opened, resb_resource resource, resb_bytes *numbers);

/* The number of a vector that has this number in it, from 0 up to numbers.length / 4, without a
 * sign. The header alone has it: it's no call of the library. */
static inline uint32_t resb_number(resb_bytes numbers, size_t number) {
  const uint8_t *bytes = numbers.bytes + 4 * number;
  return (uint32_t)bytes[0] | (uint32_t)bytes[1] << 8 | (uint32_t)bytes[2] << 16 |
         (uint32_t)bytes[3] << 24;
}

/* Tells the offset of a time zone from universal time at a moment, out of ICU's file of zones,
 * zoneinfo64.res. The moment is in seconds since 1970-01-01T00:00:00Z, and may lie before. The
 * offset is in seconds, greater than 0 in the east, and has in it what is saved in summer. The
 * zone's name is that of the file, as "Europe/Berlin", in the same letters.
 *
 * The whole file is read by each call, in some 150 microseconds for ICU's: keep what you need
 * often.
 *
 * RESB_OK: *offset is the offset. Else it is 0: RESB_NOT_UTF8 for the name, which is looked at
 * first, RESB_NOT_FOUND, RESB_NOT_A_ZONE, or a reason of resb_check. */
uint32_t resb_zone_offset(const uint8_t *file, size_t file_length, const uint8_t *zone,
                          size_t zone_length, int64_t moment, int64_t *offset, resb_error *error);

#ifdef __cplusplus
}
#endif

#endif
