/* Says in words how two entries of a book stand to each other: example BOOK FIRST SECOND. */
#include <errno.h>
#include <inttypes.h>
#include <stdbool.h>
#include <stdint.h>
#include <stdio.h>
#include <stdlib.h>
#include <string.h>

#include "register.h"

/* One byte more than the longest book has: a longer file is then refused for its length. */
enum { MOST = 8192 + 1 };

/* Exit statuses: the relation was found, the call was refused, the call was not made. */
enum { FOUND = 0, REFUSED = 1, FAILED = 2 };

static bool read_file(const char *path, uint8_t *bytes, size_t *length)
{
    FILE *file = fopen(path, "rb");
    if (file == NULL) {
        return false;
    }
    *length = fread(bytes, 1, MOST, file);
    bool good = ferror(file) == 0;
    fclose(file);
    return good;
}

static bool parse_entry(const char *text, size_t *entry)
{
    if (*text == '\0' || strspn(text, "0123456789") != strlen(text)) {
        return false;
    }
    errno = 0;
    uintmax_t value = strtoumax(text, NULL, 10);
    if (errno != 0 || value > SIZE_MAX) {
        return false;
    }
    *entry = (size_t)value;
    return true;
}

static int print_answer(uint32_t answer, size_t first, size_t second)
{
    switch (answer) {
    case REGISTER_EQUAL:
        printf("no world holds entries %zu and %zu apart\n", first, second);
        return FOUND;
    case REGISTER_BELOW:
        printf("entry %zu is strictly below entry %zu\n", first, second);
        return FOUND;
    case REGISTER_ABOVE:
        printf("entry %zu is strictly below entry %zu\n", second, first);
        return FOUND;
    case REGISTER_APART:
        printf("neither of entries %zu and %zu is below the other\n", first, second);
        return FOUND;
    default:
        printf("refused with number %" PRIu32 "\n", answer - REGISTER_REFUSED);
        return REFUSED;
    }
}

int main(int argc, char **argv)
{
    uint8_t book[MOST];
    size_t length;
    size_t first;
    size_t second;

    if (argc != 4 || !parse_entry(argv[2], &first) || !parse_entry(argv[3], &second)) {
        fprintf(stderr, "usage: %s BOOK FIRST SECOND\n", argc > 0 ? argv[0] : "example");
        return FAILED;
    }
    if (!read_file(argv[1], book, &length)) {
        fprintf(stderr, "%s: cannot be read\n", argv[1]);
        return FAILED;
    }
    return print_answer(register_relation(book, length, first, second), first, second);
}
