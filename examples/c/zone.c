/* Prints the offset of a time zone at moments in seconds since 1970, each on a line, out of ICU's
 * file of zones: zone FILE NAME MOMENT.. */
#include "resb.h"

#include <stdio.h>
#include <stdlib.h>
#include <string.h>

/* the most bytes of a file that are read */
#define MOST 1000000u

static uint8_t file[MOST];

/* Prints the offset at a moment, and gives 0, or 1 where that isn't told. */
static int show(size_t file_length, const char *name, int64_t moment) {
  int64_t offset;
  resb_error error;
  if (resb_zone_offset(file, file_length, (const uint8_t *)name, strlen(name), moment, &offset,
                       &error) != RESB_OK) {
    printf("fault %u: %s\n", (unsigned)error.kind, (const char *)error.message);
    return 1;
  }
  printf("%lld\n", (long long)offset);
  return 0;
}

int main(int count, char **words) {
  if (count < 3) return 2;
  FILE *stream = fopen(words[1], "rb");
  if (stream == NULL) {
    fprintf(stderr, "%s can't be read\n", words[1]);
    return 2;
  }
  size_t file_length = fread(file, 1, MOST, stream);
  fclose(stream);
  int status = 0;
  for (int number = 3; number < count; number++)
    status |= show(file_length, words[2], strtoll(words[number], NULL, 10));
  return status;
}
