/* What it takes to read ICU's own time zones into the records of resb_zoneinfo without one check:
 * no bound, no budget, no UTF-8, no error. It is the yardstick beside bench/zoneinfo_times.rattle,
 * and must only be given a file that is known to be whole.
 *
 *   cc -O2 -o unchecked bench/zoneinfo_unchecked.c && ./unchecked FILE [ROUNDS]
 */
#include <stdint.h>
#include <stdio.h>
#include <stdlib.h>
#include <string.h>
#include <time.h>

typedef struct {
    const void *start;
    size_t count;
} View;

typedef struct {
    View before32, within32, after32, types, offsets;
    char *final_rule;
    size_t final_rule_length;
    int32_t final_raw, final_year;
    uint8_t has_raw, has_year;
    uint32_t link;
} Zone;

typedef struct {
    View *members;
    uint32_t count;
} Views;

typedef struct {
    char *version;
    Views names, regions;
    Zone *zones;
    uint32_t zone_count;
    View rules[256];
    const char *rule_names[256];
    uint32_t rule_count;
} Info;

typedef struct {
    const uint16_t *keys;
    const void *values;
    int count;
    int has_words;
} Table;

static const uint8_t *body;
static const uint16_t *units;

static uint32_t value_of(uint32_t word) { return word & 0x0fffffff; }

static uint32_t type_of(uint32_t word) { return word >> 28; }

static View string_at(uint32_t offset) {
    const uint16_t *at = units + offset;
    View view = {at, 0};
    if ((*at & 0xfc00) != 0xdc00) {
        while (at[view.count] != 0) view.count++;
    } else if (*at < 0xdfef) {
        view = (View){at + 1, *at & 0x3ff};
    } else if (*at < 0xdfff) {
        view = (View){at + 2, (size_t)(*at - 0xdfef) << 16 | at[1]};
    } else {
        view = (View){at + 3, (size_t)at[1] << 16 | at[2]};
    }
    return view;
}

static char *text_at(uint32_t offset, size_t *length) {
    View string = string_at(offset);
    const uint16_t *from = string.start;
    char *text = malloc(string.count);
    for (size_t i = 0; i < string.count; i++) text[i] = (char)from[i];
    *length = string.count;
    return text;
}

static Table table_at(uint32_t word) {
    int is_near = type_of(word) == 5;
    const uint16_t *at = is_near ? units + value_of(word)
                                 : (const uint16_t *)(body + 4 * value_of(word));
    int count = at[0];
    int padding = is_near ? 0 : ~count & 1;
    return (Table){at + 1, at + 1 + count + padding, count, !is_near};
}

static int find(Table table, const char *name, uint32_t *word) {
    for (int i = table.count - 1; i >= 0; i--) {
        if (strcmp((const char *)body + table.keys[i], name) == 0) {
            *word = table.has_words ? ((const uint32_t *)table.values)[i]
                                    : 6u << 28 | ((const uint16_t *)table.values)[i];
            return 1;
        }
    }
    return 0;
}

static View counted_at(uint32_t word) {
    if (value_of(word) == 0) return (View){0, 0};
    const uint32_t *at = (const uint32_t *)(body + 4 * value_of(word));
    return (View){at + 1, at[0]};
}

static int32_t integer_of(uint32_t word) { return (int32_t)(word << 4) >> 4; }

static Zone zone_of(uint32_t word) {
    Zone zone;
    Table table = table_at(word);
    uint32_t value;
    memset(&zone, 0, sizeof zone);
    if (find(table, "transPre32", &value)) zone.before32 = counted_at(value);
    if (find(table, "trans", &value)) zone.within32 = counted_at(value);
    if (find(table, "transPost32", &value)) zone.after32 = counted_at(value);
    if (find(table, "typeMap", &value)) zone.types = counted_at(value);
    if (find(table, "typeOffsets", &value)) zone.offsets = counted_at(value);
    if (find(table, "finalRule", &value))
        zone.final_rule = text_at(value_of(value), &zone.final_rule_length);
    zone.has_raw = (uint8_t)find(table, "finalRaw", &value);
    if (zone.has_raw) zone.final_raw = integer_of(value);
    zone.has_year = (uint8_t)find(table, "finalYear", &value);
    if (zone.has_year) zone.final_year = integer_of(value);
    return zone;
}

static Views strings_of(uint32_t word) {
    const uint16_t *near = units + value_of(word);
    const uint32_t *far = (const uint32_t *)(body + 4 * value_of(word));
    int is_near = type_of(word) == 9;
    Views views;
    views.count = is_near ? near[0] : far[0];
    views.members = malloc(views.count * sizeof(View));
    for (uint32_t i = 0; i < views.count; i++)
        views.members[i] = string_at(is_near ? near[1 + i] : value_of(far[1 + i]));
    return views;
}

static void read_zones(uint32_t word, Info *info) {
    const uint32_t *at = (const uint32_t *)(body + 4 * value_of(word));
    info->zone_count = at[0];
    info->zones = malloc(at[0] * sizeof(Zone));
    for (uint32_t i = 0; i < at[0]; i++) {
        if (type_of(at[1 + i]) == 7) {
            memset(&info->zones[i], 0, sizeof(Zone));
            info->zones[i].link = value_of(at[1 + i]);
        } else {
            info->zones[i] = zone_of(at[1 + i]);
        }
    }
}

static Info read_info(const uint8_t *file) {
    Info info;
    const uint32_t *words;
    uint32_t value;
    size_t length;
    memset(&info, 0, sizeof info);
    body = file + *(const uint16_t *)file;
    words = (const uint32_t *)body;
    units = (const uint16_t *)(body + 4 * words[2]);
    Table root = table_at(words[0]);
    if (find(root, "TZVersion", &value)) info.version = text_at(value_of(value), &length);
    if (find(root, "Names", &value)) info.names = strings_of(value);
    if (find(root, "Zones", &value)) read_zones(value, &info);
    if (find(root, "Rules", &value)) {
        Table rules = table_at(value);
        for (int i = 0; i < rules.count; i++) {
            info.rule_names[i] = (const char *)body + rules.keys[i];
            info.rules[i] = counted_at(((const uint32_t *)rules.values)[i]);
        }
        info.rule_count = (uint32_t)rules.count;
    }
    if (find(root, "Regions", &value)) info.regions = strings_of(value);
    return info;
}

static void drop_info(Info *info) {
    for (uint32_t i = 0; i < info->zone_count; i++) free(info->zones[i].final_rule);
    free(info->zones);
    free(info->version);
    free(info->names.members);
    free(info->regions.members);
}

static double time_of(const uint8_t *file, int rounds, size_t *sum) {
    struct timespec from, to;
    clock_gettime(CLOCK_PROCESS_CPUTIME_ID, &from);
    for (int i = 0; i < rounds; i++) {
        Info info = read_info(file);
        *sum += info.zone_count + info.names.members[7].count;
        drop_info(&info);
    }
    clock_gettime(CLOCK_PROCESS_CPUTIME_ID, &to);
    return ((double)(to.tv_sec - from.tv_sec) * 1e9 + (double)(to.tv_nsec - from.tv_nsec)) / rounds;
}

int main(int argc, char **argv) {
    static uint8_t file[1 << 20] __attribute__((aligned(16)));
    FILE *stream = argc > 1 ? fopen(argv[1], "rb") : NULL;
    int rounds = argc > 2 ? atoi(argv[2]) : 1000;
    double least = 1e12;
    size_t sum = 0;
    if (stream == NULL || fread(file, 1, sizeof file, stream) == 0) return 2;
    for (int turn = 0; turn < 40; turn++) {
        double time = time_of(file, rounds, &sum);
        if (time < least) least = time;
    }
    printf("read without a check: %.0f ns a file (%zu)\n", least, sum);
    return 0;
}
