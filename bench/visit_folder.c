/* Goes through each resource of files of a folder by libicu, and prints how many there are.
 * Strings, bytes and vectors are asked for, and nothing is tested.
 *
 *     cc -O2 -o visit_folder visit_folder.c -licuuc
 *     visit_folder FOLDER NAME..      the names without .res
 */
#include <stdio.h>
#include <unicode/ures.h>

static long visit(UResourceBundle *resource) {
    UErrorCode status = U_ZERO_ERROR;
    UResourceBundle *inside = NULL;
    int32_t length;
    long count = 1;
    switch (ures_getType(resource)) {
    case URES_TABLE:
    case URES_ARRAY:
        for (ures_resetIterator(resource); ures_hasNext(resource);) {
            inside = ures_getNextResource(resource, inside, &status);
            count += visit(inside);
        }
        ures_close(inside);
        break;
    case URES_STRING:
        ures_getString(resource, &length, &status);
        break;
    case URES_BINARY:
        ures_getBinary(resource, &length, &status);
        break;
    case URES_INT_VECTOR:
        ures_getIntVector(resource, &length, &status);
        break;
    default:
        break;
    }
    return count;
}

int main(int count, char **words) {
    long resources = 0;
    for (int number = 2; number < count; number++) {
        UErrorCode status = U_ZERO_ERROR;
        UResourceBundle *root = ures_openDirect(words[1], words[number], &status);
        if (U_FAILURE(status)) {
            fprintf(stderr, "%s: %s\n", words[number], u_errorName(status));
            return 1;
        }
        resources += visit(root);
        ures_close(root);
    }
    printf("%ld\n", resources);
    return 0;
}
