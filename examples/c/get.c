/* Compiles the text on standard input, and prints what stands at each path in its file: a string or
 * a number as it is, a binary in hexadecimal, and of all else its kind and size, with the keys of a
 * table, each on a line: get PATH.. */
#include "resb.h"

#include <stdio.h>
#include <string.h>

/* the most bytes of a text, of a file, and of a string or a binary */
#define MOST 100000u

static uint8_t text[MOST], file[MOST], out[MOST];
static resb_opened opened;

static int fail(const resb_error *error) {
  printf("fault %u: %s\n", (unsigned)error->kind, (const char *)error->message);
  return 1;
}

/* Prints each key of a table that has so many entries. */
static void show_keys(resb_resource table, size_t entries) {
  resb_bytes key;
  for (size_t number = 0; number < entries; number++) {
    if (resb_key_of(&opened, table, number, &key) != RESB_OK) continue;
    printf("  ");
    fwrite(key.bytes, 1, key.length, stdout);
    putchar('\n');
  }
}

/* Prints what stands at a path, and gives 0, or 1 where nothing does. */
static int show(const char *path) {
  resb_resource found;
  resb_bytes bytes;
  size_t length, size;
  int32_t value;
  uint32_t kind;
  uint32_t status =
      resb_find(&opened, opened.root, (const uint8_t *)path, strlen(path), &found);
  if (status != RESB_OK) {
    printf("fault %u\n", (unsigned)status);
    return 1;
  }
  if (resb_string_of(&opened, found, out, MOST, &length) == RESB_OK) {
    fwrite(out, 1, length, stdout);
    putchar('\n');
  } else if (resb_integer_of(&opened, found, &value) == RESB_OK) {
    printf("%ld\n", (long)value);
  } else if (resb_bytes_of(&opened, found, &bytes) == RESB_OK) {
    for (size_t number = 0; number < bytes.length; number++) printf("%02x", bytes.bytes[number]);
    putchar('\n');
  } else if (resb_kind_of(&opened, found, &kind, &size) == RESB_OK) {
    printf("%s, size %zu\n", resb_kind_name(kind), size);
    if (kind == RESB_TABLE) show_keys(found, size);
  }
  return 0;
}

int main(int count, char **words) {
  const resb_options options = RESB_OPTIONS;
  size_t text_length = fread(text, 1, MOST, stdin), file_length;
  resb_error error;
  if (resb_compile(text, text_length, &options, file, MOST, &file_length, &error) != RESB_OK)
    return fail(&error);
  /* a length of 0 says that there is no pool bundle */
  if (resb_open(file, file_length, file, 0, &opened, &error) != RESB_OK) return fail(&error);
  int status = 0;
  for (int number = 1; number < count; number++) status |= show(words[number]);
  return status;
}
