/* The least that a writer of bundles has to do with a text's strings: it tells the equal ones.
 *
 *     cc -O2 -o /tmp/distinct bench/distinct.c && /tmp/distinct < TEXT
 *
 * Each string between two quotes is looked for in a table of those before it, by a hash of its
 * bytes, and put there if it is new. Nothing else is done, and no length or room is tested. So
 * how its time grows with the text says how far the growth of a whole writer can fall on the
 * same machine: `bench/write_kinds.py --distinct /tmp/distinct` prints it. */
#include <stdint.h>
#include <stdio.h>
#include <stdlib.h>
#include <string.h>

struct text {
    const char *at;
    uint32_t length, hash;
};

static char *read_all(size_t *length) {
    size_t room = 1 << 20;
    char *bytes = malloc(room + 8);
    *length = 0;
    for (size_t n; (n = fread(bytes + *length, 1, room - *length, stdin)) > 0;) {
        *length += n;
        if (*length == room)
            bytes = realloc(bytes, (room *= 2) + 8);
    }
    return bytes;
}

static uint32_t hash_of(const char *at, size_t length) {
    uint64_t hash = length;
    for (; length >= 8; at += 8, length -= 8) {
        uint64_t word;
        memcpy(&word, at, 8);
        hash = (hash ^ word) * 0x9E3779B97F4A7C15u;
        hash ^= hash >> 32;
    }
    for (; length > 0; at++, length--)
        hash = (hash ^ (unsigned char)*at) * 0x9E3779B97F4A7C15u;
    return hash ^ hash >> 29;
}

int main(void) {
    size_t length, count = 0, room = 1 << 10, slots = 1 << 11;
    char *bytes = read_all(&length), *end = bytes + length, *at = bytes;
    struct text *texts = malloc(room * sizeof *texts);
    uint32_t *table = calloc(slots, sizeof *table);
    while ((at = memchr(at, '"', end - at)) != NULL) {
        char *quote = memchr(at + 1, '"', end - at - 1);
        if (quote == NULL)
            break;
        struct text text = {at + 1, quote - at - 1, 0};
        text.hash = hash_of(text.at, text.length);
        size_t slot = text.hash & (slots - 1);
        for (; table[slot] != 0; slot = (slot + 1) & (slots - 1)) {
            struct text *other = &texts[table[slot] - 1];
            if (other->hash == text.hash && other->length == text.length
                && memcmp(other->at, text.at, text.length) == 0)
                break;
        }
        if (table[slot] == 0) {
            if (count == room)
                texts = realloc(texts, (room *= 2) * sizeof *texts);
            texts[count++] = text;
            table[slot] = count;
            if (2 * count > slots) {
                free(table);
                table = calloc(slots *= 2, sizeof *table);
                for (size_t i = 0; i < count; i++) {
                    size_t free_slot = texts[i].hash & (slots - 1);
                    while (table[free_slot] != 0)
                        free_slot = (free_slot + 1) & (slots - 1);
                    table[free_slot] = i + 1;
                }
            }
        }
        at = quote + 1;
    }
    printf("%zu distinct strings\n", count);
    return 0;
}
