/* Looks up the offset of a time zone by hand, at moments in seconds since 1970, each on a line, out
 * of ICU's file of zones: offset FILE NAME MOMENT.. It knows the transitions of a zone and no rule
 * for the years behind them; resb_zone_offset knows both. */
#include "resb.h"

#include <stdio.h>
#include <stdlib.h>
#include <string.h>

/* the most bytes of a file that are read, and of a zone's name */
#define MOST 1000000u
#define MOST_NAME 100u

static uint8_t file[MOST];

/* A vector of a table, or an empty one where the table has none of that name. */
static resb_bytes vector_in(const resb_opened *opened, resb_resource table, const char *key) {
  resb_bytes numbers = {file, 0};
  resb_resource value;
  if (resb_value(opened, table, (const uint8_t *)key, strlen(key), &value) == RESB_OK)
    resb_vector_of(opened, value, &numbers);
  return numbers;
}

/* Finds the zone of a name, through one link, and gives 0, or a status where there is none. */
static uint32_t find_zone(const resb_opened *opened, const char *name, resb_resource *zone) {
  uint8_t text[MOST_NAME];
  uint32_t kind, link;
  size_t count, length;
  resb_resource names, zones, found;
  if (resb_find(opened, opened->root, (const uint8_t *)"/Names", 6, &names) != RESB_OK ||
      resb_find(opened, opened->root, (const uint8_t *)"/Zones", 6, &zones) != RESB_OK)
    return RESB_NOT_FOUND;
  resb_kind_of(opened, names, &kind, &count);
  for (size_t number = 0; number < count; number++) {
    resb_member(opened, names, number, &found);
    if (resb_string_of(opened, found, text, MOST_NAME, &length) != RESB_OK ||
        length != strlen(name) || memcmp(text, name, length) != 0)
      continue;
    uint32_t status = resb_member(opened, zones, number, zone);
    if (status == RESB_OK && resb_unsigned_of(opened, *zone, &link) == RESB_OK)
      status = resb_member(opened, zones, link, zone);
    return status;
  }
  return RESB_NOT_FOUND;
}

/* The moment of a transition: two numbers for each, the upper one first, or one. */
static int64_t moment_of(resb_bytes moments, size_t number, int is_wide) {
  if (!is_wide) return (int32_t)resb_number(moments, number);
  uint64_t upper = resb_number(moments, 2 * number);
  return (int64_t)(upper << 32 | resb_number(moments, 2 * number + 1));
}

/* The number of the type to which the last transition of a block leads that is at most the moment,
 * or the type before. Each transition has a byte of the map. */
static uint8_t type_at(resb_bytes moments, int is_wide, resb_bytes map, int64_t moment,
                       uint8_t before) {
  size_t count = moments.length / (is_wide ? 8 : 4);
  uint8_t type = before;
  for (size_t number = 0; number < count && number < map.length; number++)
    if (moment_of(moments, number, is_wide) <= moment) type = map.bytes[number];
  return type;
}

/* The map behind so many of its bytes. */
static resb_bytes behind(resb_bytes map, size_t count) {
  count = count < map.length ? count : map.length;
  map.bytes += count;
  map.length -= count;
  return map;
}

/* Prints the offset of a zone at a moment: the raw one and what is saved in summer. */
static void show(const resb_opened *opened, resb_resource zone, int64_t moment) {
  resb_bytes offsets = vector_in(opened, zone, "typeOffsets"), map = {file, 0}, part;
  resb_resource found;
  uint8_t type = 0;
  if (resb_value(opened, zone, (const uint8_t *)"typeMap", 7, &found) == RESB_OK)
    resb_bytes_of(opened, found, &map);
  part = vector_in(opened, zone, "transPre32");
  type = type_at(part, 1, map, moment, type);
  map = behind(map, part.length / 8);
  part = vector_in(opened, zone, "trans");
  type = type_at(part, 0, map, moment, type);
  map = behind(map, part.length / 4);
  part = vector_in(opened, zone, "transPost32");
  type = type_at(part, 1, map, moment, type);
  if (2 * (size_t)type + 1 >= offsets.length / 4) {
    printf("the zone has no type %u\n", (unsigned)type);
    return;
  }
  printf("%ld\n", (long)(int32_t)resb_number(offsets, 2 * (size_t)type) +
                      (long)(int32_t)resb_number(offsets, 2 * (size_t)type + 1));
}

int main(int count, char **words) {
  if (count < 3) return 2;
  FILE *stream = fopen(words[1], "rb");
  if (stream == NULL) {
    fprintf(stderr, "%s can't be read\n", words[1]);
    return 2;
  }
  size_t length = fread(file, 1, MOST, stream);
  fclose(stream);
  resb_opened opened;
  resb_resource zone;
  resb_error error;
  /* a length of 0 says that there is no pool bundle */
  if (resb_open(file, length, file, 0, &opened, &error) != RESB_OK) {
    printf("fault %u: %s\n", (unsigned)error.kind, (const char *)error.message);
    return 1;
  }
  uint32_t status = find_zone(&opened, words[2], &zone);
  if (status != RESB_OK) {
    printf("fault %u\n", (unsigned)status);
    return 1;
  }
  for (int number = 3; number < count; number++)
    show(&opened, zone, strtoll(words[number], NULL, 10));
  return 0;
}
