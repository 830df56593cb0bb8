/* What the tests of the C call know of books: an independent reading, and a maker of books. */
#ifndef BOOKS_H
#define BOOKS_H

#include <stddef.h>
#include <stdint.h>

enum { SHORTEST_BOOK = 16, LONGEST_BOOK = 8192, SMALLEST_MENDED = 20 };

/* A source of numbers that look random, the same ones for the same seed. It must not be 0. */
uint64_t next_random(uint64_t *state);

/* A number below `limit`, which is not 0. */
size_t random_below(uint64_t *state, size_t limit);

/* The refusal that reading these bytes and opening a register on them come to, 1 to 7, 12 or 13; 0 where there is none. */
unsigned refusal_of(const uint8_t *bytes, size_t length);

/* The count of the concept entries, by the trailer of bytes that are not refused with 1. */
size_t entries_of(const uint8_t *bytes, size_t length);

/*
 * Makes a book that can be read out of SMALLEST_MENDED to LONGEST_BOOK bytes, of the same length, near to what they were:
 * counts, places and records that are out of their range are brought into it. What a register says to it is left open: it
 * may have 64 roles or too many working entries.
 */
void mend(uint8_t *bytes, size_t length, uint64_t *state);

/* Writes a book of random records, mostly of few of them, into so many bytes, and mends it. */
void make_random_book(uint8_t *bytes, size_t length, uint64_t *state);

/*
 * Writes a book in which an entry has as many choices under it as there can be: each entry is "the one before or the one
 * before that". The answer is its length; `bytes` has room for 300.
 */
size_t make_chain_book(uint8_t *bytes, size_t entries, size_t rules);

#endif
