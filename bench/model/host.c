/* Asks the library for hosts in C: for each line HEXBOOK E1 E2 of standard input, prints what register_relation answers. */
#include <inttypes.h>
#include <stdint.h>
#include <stdio.h>
#include <string.h>

#include "register.h"

enum { LINE = 1 << 16 };

static unsigned digit(char c)
{
    return c <= '9' ? (unsigned)(c - '0') : (unsigned)(c - 'a' + 10);
}

int main(void)
{
    static char line[LINE];
    static uint8_t book[LINE / 2];
    while (fgets(line, sizeof line, stdin) != NULL) {
        char *space = strchr(line, ' ');
        if (space == NULL) {
            return 2;
        }
        size_t length = (size_t)(space - line) / 2;
        for (size_t i = 0; i < length; i++) {
            book[i] = (uint8_t)(16 * digit(line[2 * i]) + digit(line[2 * i + 1]));
        }
        uintmax_t first, second;
        if (sscanf(space, "%" SCNuMAX " %" SCNuMAX, &first, &second) != 2) {
            return 2;
        }
        printf("%" PRIu32 "\n", register_relation(book, length, (size_t)first, (size_t)second));
    }
    return 0;
}
