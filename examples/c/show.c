/* Prints a file as a text, or as JSON, beside the pool bundle that it uses, if it uses one:
 * show [--json] FILE [POOL] */
#include "resb.h"

#include <stdio.h>
#include <stdlib.h>
#include <string.h>

/* the most bytes that a tree may take, and its text */
#define LIMIT 1000000u

/* the most bytes of a file that are read */
#define MOST 1000000u

static uint8_t file[MOST], pool[MOST];

static int fail(const resb_error *error) {
  fprintf(stderr, "fault %u: %s\n", (unsigned)error->kind, (const char *)error->message);
  return 1;
}

/* How many bytes of a file are read into the buffer. */
static size_t read_file(const char *name, uint8_t *bytes) {
  FILE *stream = fopen(name, "rb");
  if (stream == NULL) {
    fprintf(stderr, "%s can't be read\n", name);
    exit(2);
  }
  size_t length = fread(bytes, 1, MOST, stream);
  fclose(stream);
  return length;
}

int main(int count, char **words) {
  int as_json = count > 1 && strcmp(words[1], "--json") == 0;
  count -= as_json;
  words += as_json;
  if (count < 2) return 2;
  resb_options options = RESB_OPTIONS;
  options.form = as_json ? RESB_JSON : RESB_PLAIN;
  options.limit = LIMIT;
  options.name = (const uint8_t *)"bundle";
  options.name_length = strlen("bundle");
  options.pool = pool;
  /* a length of 0 says that there is no pool bundle */
  options.pool_length = count > 2 ? read_file(words[2], pool) : 0;
  size_t file_length = read_file(words[1], file), length;
  resb_measured measured;
  resb_error error;
  if (resb_check(file, file_length, pool, options.pool_length, &measured, &error) != RESB_OK)
    return fail(&error);
  printf("%zu resources, %zu bytes of keys\n", measured.resources, (size_t)measured.key_bytes);
  uint8_t *text = malloc(LIMIT);
  if (text == NULL) return 2;
  int status = 0;
  if (resb_dump(file, file_length, &options, text, LIMIT, &length, &error) == RESB_OK)
    fwrite(text, 1, length, stdout);
  else
    status = fail(&error);
  free(text);
  return status;
}
