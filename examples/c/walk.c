/* Opens a file, and prints each resource of it on a line, from the root on: its kind and its value,
 * two blanks for each level, and in a table its key before: walk FILE [POOL] */
#include "resb.h"

#include <stdio.h>

/* the most bytes of a file and of a string, and the most levels */
#define MOST 1000000u
#define LEVELS 100u

static uint8_t file[MOST], pool[MOST], text[MOST];

/* Reads a file of that name, and gives its length, or 0 where it can't be read. */
static size_t read_file(const char *name, uint8_t *bytes) {
  FILE *stream = fopen(name, "rb");
  if (stream == NULL) return 0;
  size_t length = fread(bytes, 1, MOST, stream);
  fclose(stream);
  return length;
}

/* Prints the value of what has no members: of a vector its numbers without a sign, of an integer
 * its number with it. */
static void show_value(const resb_opened *opened, resb_resource resource) {
  size_t length;
  int32_t value;
  resb_bytes bytes;
  if (resb_string_of(opened, resource, text, MOST, &length) == RESB_OK) {
    putchar(' ');
    fwrite(text, 1, length, stdout);
  }
  if (resb_integer_of(opened, resource, &value) == RESB_OK) printf(" %ld", (long)value);
  if (resb_bytes_of(opened, resource, &bytes) == RESB_OK) {
    putchar(' ');
    for (size_t number = 0; number < bytes.length; number++) printf("%02x", bytes.bytes[number]);
  }
  if (resb_vector_of(opened, resource, &bytes) == RESB_OK)
    for (size_t number = 0; number < bytes.length / 4; number++)
      printf(" %lu", (unsigned long)resb_number(bytes, number));
}

/* Prints a resource's line at a level, with a key if it has one, and tells how many members are to
 * be gone through. */
static size_t show(const resb_opened *opened, resb_resource resource, size_t level,
                   resb_bytes key) {
  uint32_t kind;
  size_t size;
  printf("%*s", (int)(2 * level), "");
  if (key.length > 0) {
    fwrite(key.bytes, 1, key.length, stdout);
    printf(": ");
  }
  resb_kind_of(opened, resource, &kind, &size);
  printf("%s", resb_kind_name(kind));
  show_value(opened, resource);
  putchar('\n');
  return kind == RESB_TABLE || kind == RESB_ARRAY ? size : 0;
}

/* Prints all resources, and gives 0, or 1 where there are too many levels. */
static int walk(const resb_opened *opened) {
  struct {
    resb_resource resource;
    size_t next, size;
  } levels[LEVELS];
  resb_bytes key = {file, 0};
  size_t count = 1;
  levels[0].resource = opened->root;
  levels[0].next = 0;
  levels[0].size = show(opened, opened->root, 0, key);
  while (count > 0) {
    resb_resource resource = levels[count - 1].resource, member;
    size_t next = levels[count - 1].next;
    if (next == levels[count - 1].size) {
      count--;
      continue;
    }
    levels[count - 1].next++;
    /* an array has no keys, and there is none then */
    resb_key_of(opened, resource, next, &key);
    resb_member(opened, resource, next, &member);
    if (count == LEVELS) return 1;
    levels[count].resource = member;
    levels[count].next = 0;
    levels[count].size = show(opened, member, count, key);
    count++;
  }
  return 0;
}

int main(int count, char **words) {
  if (count < 2) return 2;
  size_t length = read_file(words[1], file);
  size_t pool_length = count > 2 ? read_file(words[2], pool) : 0;
  resb_opened opened;
  resb_error error;
  if (resb_open(file, length, pool, pool_length, &opened, &error) != RESB_OK) {
    printf("fault %u: %s\n", (unsigned)error.kind, (const char *)error.message);
    return 1;
  }
  printf("%zu resources\n", opened.count);
  return walk(&opened);
}
