/* Looks strings up in a file of a folder by libicu, each by its path of keys.
 *
 *     cc -O2 -o look_up look_up.c -licuuc
 *     look_up FOLDER NAME list              prints the path of each string below tables alone
 *     look_up FOLDER NAME root ROUNDS       looks up each path of standard input, from the root
 *     look_up FOLDER NAME kept ROUNDS       each path's last key, in the table of the first path
 *
 * NAME is without .res; a path is a line, with a slash between keys. Printed is the sum of the
 * strings' lengths.
 */
#include <stdio.h>
#include <stdlib.h>
#include <string.h>
#include <unicode/ures.h>

enum { PATHS = 100000, KEYS = 8, LINE = 4000 };

typedef struct {
    int count;
    char *keys[KEYS];
} Path;

static Path paths[PATHS];
static char line[LINE];

static void list(UResourceBundle *table, size_t end) {
    UErrorCode status = U_ZERO_ERROR;
    UResourceBundle *inside = NULL;
    for (ures_resetIterator(table); ures_hasNext(table);) {
        inside = ures_getNextResource(table, inside, &status);
        const char *key = ures_getKey(inside);
        size_t behind = end + (size_t)sprintf(line + end, end ? "/%s" : "%s", key);
        if (ures_getType(inside) == URES_STRING)
            puts(line);
        else if (ures_getType(inside) == URES_TABLE)
            list(inside, behind);
    }
    ures_close(inside);
}

static int read_paths(void) {
    int count = 0;
    while (count < PATHS && fgets(line, LINE, stdin)) {
        char *rest = strdup(line);
        rest[strcspn(rest, "\n")] = 0;
        for (char *key = strtok(rest, "/"); key; key = strtok(NULL, "/"))
            paths[count].keys[paths[count].count++] = key;
        count++;
    }
    return count;
}

/* The table that holds the last key of a path. */
static UResourceBundle *table_of(UResourceBundle *at, const Path *path, UResourceBundle **room) {
    UErrorCode status = U_ZERO_ERROR;
    for (int number = 0; number + 1 < path->count; number++) {
        at = room[number % 2] = ures_getByKey(at, path->keys[number], room[number % 2], &status);
        if (U_FAILURE(status))
            exit(1);
    }
    return at;
}

static int32_t length_at(UResourceBundle *table, const char *key) {
    UErrorCode status = U_ZERO_ERROR;
    int32_t length = 0;
    ures_getStringByKey(table, key, &length, &status);
    if (U_FAILURE(status))
        exit(1);
    return length;
}

int main(int count, char **words) {
    UErrorCode status = U_ZERO_ERROR;
    if (count < 4)
        return 2;
    UResourceBundle *root = ures_openDirect(words[1], words[2], &status);
    if (U_FAILURE(status))
        return 1;
    if (strcmp(words[3], "list") == 0) {
        list(root, 0);
        return 0;
    }
    int many = read_paths(), kept = strcmp(words[3], "kept") == 0;
    UResourceBundle *room[2] = {NULL, NULL};
    UResourceBundle *table = many ? table_of(root, &paths[0], room) : root;
    long sum = 0;
    for (long round = count > 4 ? atol(words[4]) : 1; round > 0; round--)
        for (int number = 0; number < many; number++) {
            const Path *path = &paths[number];
            UResourceBundle *at = kept ? table : table_of(root, path, room);
            sum += length_at(at, path->keys[path->count - 1]);
        }
    printf("%ld\n", sum);
    return 0;
}
