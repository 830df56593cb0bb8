/* Calls of register_relation on books between pages that must not be touched, with all that can be said of the answers. */
#ifndef GUARDED_H
#define GUARDED_H

#include <stddef.h>
#include <stdint.h>

/* The longest book that can be placed between the guards. */
enum { MOST_PLACED = 3 * 4096 };

/* What `guarded_check` gives for a call that was stopped, which is no answer. */
#define STOPPED UINT32_MAX

/* Lays out the pages. A call that takes more than `seconds` of processor time is stopped from then on, and counted. */
void guarded_open(double seconds);

/*
 * Asks how two entries of a book stand, and the reverse, with the book before a guard page, behind one and in a block of
 * its own. The process is aborted where something is wrong:
 *
 *     - the call reads outside the book (a signal) or writes to it (a signal: it lies in pages that are only read)
 *     - an answer is none of 0 to 3 and 100 + 1 to 8, 12, 13 and 15
 *     - a refusal with 1 to 8, 12 or 13 is not the one that the bytes have by an independent reading
 *     - an entry and itself are not answered with 0, nor refused
 *     - the answer is another one where the book lies elsewhere
 *     - the answer for the entries exchanged is not the mirrored one
 *
 * What it gives is the answer for the entries as they stand.
 */
uint32_t guarded_check(const uint8_t *bytes, size_t length, size_t first, size_t second);

/* How many calls were made, and how many of them were stopped. */
unsigned long guarded_calls(void);
unsigned long guarded_stops(void);

/* Prints how often each answer was given, in one line. */
void guarded_print(void);

#endif
