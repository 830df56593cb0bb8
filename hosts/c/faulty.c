/*
 * Planted faults, to see that the tests find them: the library's call with one of several things wrong, by FAULT. A test is
 * linked with -Wl,--wrap=register_relation, so that its calls come here.
 */
#include <stdlib.h>
#include <string.h>

#include "books.h"
#include "register.h"

uint32_t __real_register_relation(const uint8_t *book, size_t length, size_t first, size_t second);
uint32_t __wrap_register_relation(const uint8_t *book, size_t length, size_t first, size_t second);

/* A read that the compiler may not leave out and that no sanitizer looks at, as those of the library are. */
__attribute__((no_sanitize("address", "undefined"), noinline)) static unsigned peek(const volatile uint8_t *byte)
{
    return *byte;
}

uint32_t __wrap_register_relation(const uint8_t *book, size_t length, size_t first, size_t second)
{
    static unsigned calls;
    static void *volatile taken;
    uint32_t answer = __real_register_relation(book, length, first, second);
    calls++;
    switch (FAULT) {
    case 1: /* reads the byte after the book */
        return answer + (peek(book + length) == 257);
    case 2: /* reads the byte before the book */
        return answer + (peek(book - 1) == 257);
    case 3: /* writes to the book what is there already */
        if (length > 0) {
            *(volatile uint8_t *)(uintptr_t)book = peek(book);
        }
        return answer;
    case 4: /* an answer of another number */
        return answer == REGISTER_APART ? 4 : answer;
    case 5: /* above for below */
        return answer == REGISTER_ABOVE ? REGISTER_BELOW : answer;
    case 6: /* answers otherwise now and then */
        return answer <= REGISTER_APART && calls % 97 == 0 ? REGISTER_REFUSED + 15 : answer;
    case 7: /* one refusal for another */
        return answer == REGISTER_REFUSED + 6 ? REGISTER_REFUSED + 7 : answer;
    case 8: /* cuts an entry to 32 bits */
        return __real_register_relation(book, length, (uint32_t)first, (uint32_t)second);
    case 9: /* cuts the length to 32 bits */
        return __real_register_relation(book, (uint32_t)length, first, second);
    case 10: /* leaks */
        taken = malloc(length + 1);
        return answer + (taken == NULL);
    case 11: { /* goes by what was never written */
        volatile uint8_t waste[16];
        return answer + (peek(waste + 3) == 0x5A && peek(waste + 4) == 0x5B ? 1 : 0);
    }
    default:
        return answer;
    }
}
