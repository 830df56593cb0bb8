/*
 * A target for libFuzzer. The first two bytes of an input say which entries are asked for, and the rest is the book. With no
 * coverage of the library, which is not compiled for it, inputs are told apart by the independent reading of books.c and by
 * the answers.
 */
#include <stdbool.h>
#include <stdio.h>
#include <stdlib.h>
#include <string.h>

#include "books.h"
#include "guarded.h"

enum { HEAD = 2, COUNTERS = 256 };

int LLVMFuzzerInitialize(int *argc, char ***argv);
int LLVMFuzzerTestOneInput(const uint8_t *data, size_t size);
size_t LLVMFuzzerMutate(uint8_t *data, size_t size, size_t most);
size_t LLVMFuzzerCustomMutator(uint8_t *data, size_t size, size_t most, unsigned seed);

/* libFuzzer keeps an input that sets a counter which no input before it has set. */
__attribute__((section("__libfuzzer_extra_counters"))) static uint8_t counters[COUNTERS];

static unsigned long inputs;

/* Small numbers as they are; from 128 on numbers of all sizes, most of which no book has. */
static size_t entry_of(uint8_t byte)
{
    static const size_t bases[8] = {
        64, 256 - 8, 65536 - 8, 0x7FFFFFF8, 0xFFFFFFF8, 0x100000000, 0x7FFFFFFFFFFFFFF8, SIZE_MAX - 15,
    };
    return byte < 128 ? byte : bases[(byte - 128) / 16] + byte % 16;
}

static void print_end(void)
{
    printf("inputs: %lu\ncalls: %lu\n", inputs, guarded_calls());
    guarded_print();
}

int LLVMFuzzerInitialize(int *argc, char ***argv)
{
    (void)argc;
    (void)argv;
    const char *seconds = getenv("CALL_SECONDS");
    guarded_open(seconds == NULL ? 0.05 : atof(seconds));
    atexit(print_end);
    return 0;
}

int LLVMFuzzerTestOneInput(const uint8_t *data, size_t size)
{
    if (size < HEAD || size > HEAD + MOST_PLACED) {
        return 0;
    }
    inputs++;
    uint32_t answer = guarded_check(data + HEAD, size - HEAD, entry_of(data[0]), entry_of(data[1]));
    counters[answer == STOPPED ? COUNTERS - 1 : answer] = 1;
    return 0;
}

/* Of four inputs one is as libFuzzer mutates it, two are mended to books that can be read, and one is a new book. */
size_t LLVMFuzzerCustomMutator(uint8_t *data, size_t size, size_t most, unsigned seed)
{
    uint64_t state = seed + UINT64_C(0x9E3779B97F4A7C15);
    unsigned way = (unsigned)random_below(&state, 4);
    if (way == 0 || most < HEAD + SMALLEST_MENDED) {
        return LLVMFuzzerMutate(data, size, most);
    }
    if (way == 1) {
        size_t limit = most - HEAD < 700 ? most - HEAD : 700;
        size = HEAD + SMALLEST_MENDED + random_below(&state, limit - SMALLEST_MENDED + 1);
        make_random_book(data + HEAD, size - HEAD, &state);
    } else {
        size = LLVMFuzzerMutate(data, size, most);
        if (size < HEAD + SMALLEST_MENDED || size > HEAD + LONGEST_BOOK) {
            return size;
        }
        mend(data + HEAD, size - HEAD, &state);
    }
    size_t entries = entries_of(data + HEAD, size - HEAD);
    for (size_t k = 0; k < HEAD; k++) {
        if (random_below(&state, 8) != 0) {
            data[k] = (uint8_t)random_below(&state, entries);
        }
    }
    return size;
}
