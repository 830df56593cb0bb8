/* The class register of type books, for hosts written in C. */
#ifndef REGISTER_H
#define REGISTER_H

#include <stddef.h>
#include <stdint.h>

#ifdef __cplusplus
extern "C" {
#endif

/* What `register_relation` answers. A world below is a finite one that keeps the book. */
enum register_answer {
    /* No world has an individual in one of the two entries and outside the other. */
    REGISTER_EQUAL = 0,
    /* Every world puts all of the first entry into the second, and not every world does the reverse. */
    REGISTER_BELOW = 1,
    /* Every world puts all of the second entry into the first, and not every world does the reverse. */
    REGISTER_ABOVE = 2,
    /* Not every world puts all of the first entry into the second, nor every world the reverse. */
    REGISTER_APART = 3,
    /*
     * From here on the call was refused, and what is left over is the number of the refusal:
     *
     *     1 to 7   the bytes are not a book
     *     8        the book has no such entry
     *     12       the book has 64 roles, which leaves no number for one more
     *     13       the book has more than 64 working entries
     *     15       200 nodes do not suffice for a search
     *
     * It is the first refusal in this order of work: reading the book, opening a register, filing the first entry, filing
     * the second, asking whether the first class is within the second, and asking the reverse.
     */
    REGISTER_REFUSED = 100
};

/*
 * How two entries of a book, by their numbers from 0, stand to each other. The book is `length` bytes from `book` on, which
 * the call only reads, and which must not change during the call; `book` must not be NULL, even where `length` is 0. Every
 * other argument is allowed.
 *
 * The call allocates nothing and keeps nothing: all that it writes is on its stack, and the library has no variables of its
 * own. So several threads may make it at once; that is neither proved nor tested. It can take very long. README.md tells how
 * much stack it took.
 */
uint32_t register_relation(const uint8_t *book, size_t length, size_t first, size_t second);

#ifdef __cplusplus
}
#endif

#endif
