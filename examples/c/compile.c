/* Compiles the text on standard input, says how large the file is, and prints it back as a text.
 * What the text is warned of goes to standard error. With --icu both texts have ICU's form; with
 * --json it is printed back as JSON. */
#include "resb.h"

#include <stdio.h>
#include <stdlib.h>
#include <string.h>

/* the most bytes that reading a text may make, and that a tree may take */
#define LIMIT 1000000u

static int fail(const resb_error *error) {
  fprintf(stderr, "fault %u: %s\n", (unsigned)error->kind, (const char *)error->message);
  return 1;
}

/* The same of a text, with the line and the column of the error's place, if it has one. */
static int fail_at(const uint8_t *text, size_t length, const resb_error *error) {
  if (error->kind == RESB_NOT_UTF8 || error->kind == RESB_NOT_A_BUNDLE) {
    size_t line, column;
    resb_location(text, length, error->place, &line, &column);
    fprintf(stderr, "%zu:%zu: ", line, column);
  }
  return fail(error);
}

/* what the texts are, and what is printed */
static resb_options wanted = RESB_OPTIONS, shown = RESB_OPTIONS;

/* Sets the options by the word of the command, if there is one. */
static void set_options(const char *word) {
  wanted.limit = shown.limit = LIMIT;
  shown.name = (const uint8_t *)"bundle";
  shown.name_length = strlen("bundle");
  if (word != NULL && strcmp(word, "--icu") == 0) wanted.form = shown.form = RESB_ICU;
  if (word != NULL && strcmp(word, "--json") == 0) shown.form = RESB_JSON;
}

/* The text of a file, or its JSON, of *length bytes, or null. */
static uint8_t *text_of(const uint8_t *file, size_t file_length, size_t *length,
                        resb_error *error) {
  uint8_t none;
  if (resb_dump(file, file_length, &shown, &none, 0, length, error) != RESB_TOO_SHORT) return NULL;
  uint8_t *text = malloc(*length);
  if (text != NULL) resb_dump(file, file_length, &shown, text, *length, length, error);
  return text;
}

static int show(const uint8_t *file, size_t length) {
  resb_measured measured;
  resb_error error;
  size_t text_length;
  /* a length of 0 says that there is no pool bundle */
  if (resb_check(file, length, file, 0, &measured, &error) != RESB_OK) return fail(&error);
  printf("%zu bytes, %zu resources, %zu entries\n", length, measured.resources,
         (size_t)measured.entries);
  uint8_t *text = text_of(file, length, &text_length, &error);
  if (text == NULL) return fail(&error);
  fwrite(text, 1, text_length, stdout);
  free(text);
  return 0;
}

/* Says what may not be meant in the text. */
static void warn(const uint8_t *text, size_t text_length) {
  uint8_t none;
  size_t length;
  resb_error error;
  uint32_t status = resb_warnings(text, text_length, &wanted, &none, 0, &length, &error);
  /* where there is nothing to say, that buffer has room for it */
  uint8_t *lines = status == RESB_TOO_SHORT ? malloc(length) : NULL;
  if (lines == NULL) return;
  if (resb_warnings(text, text_length, &wanted, lines, length, &length, &error) == RESB_OK)
    fwrite(lines, 1, length, stderr);
  free(lines);
}

int main(int count, char **words) {
  static uint8_t text[65536];
  uint8_t none;
  size_t length;
  resb_error error;
  size_t text_length = fread(text, 1, sizeof text, stdin);
  set_options(count > 1 ? words[1] : NULL);

  /* the first call tells how much room the file needs */
  if (resb_compile(text, text_length, &wanted, &none, 0, &length, &error) != RESB_TOO_SHORT)
    return fail_at(text, text_length, &error);
  warn(text, text_length);
  uint8_t *file = malloc(length);
  if (file == NULL) return 1;
  int status = resb_compile(text, text_length, &wanted, file, length, &length, &error) == RESB_OK
                   ? show(file, length)
                   : fail_at(text, text_length, &error);
  free(file);
  return status;
}
