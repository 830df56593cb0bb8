/*
 * Calls by table and at random: table SECONDS SEED BOOKS SAMPLE.. makes the calls of the tables, those on the sample books
 * and their spoilt copies, and those on so many random books. A call is stopped after SECONDS of processor time. With
 * --few first it takes only a part of the tables, for a run that is slow.
 */
#define _GNU_SOURCE
#include <inttypes.h>
#include <stdbool.h>
#include <stdio.h>
#include <stdlib.h>
#include <string.h>
#include <sys/mman.h>

#include "books.h"
#include "guarded.h"
#include "register.h"

#define COUNT(array) (sizeof(array) / sizeof *(array))

static const size_t entry_table[] = {
    0, 1, 2, 59, 60, 63, 64, 255, 256, 65535, 65536, 0x7FFFFFFF, 0x80000000, 0xFFFFFFFF, 0x100000000, 0x100000001,
    0x7FFFFFFFFFFFFFFF, 0x8000000000000000, SIZE_MAX - 1, SIZE_MAX,
};

static bool few;

static void check_all_entries(const uint8_t *bytes, size_t length)
{
    for (size_t a = 0; a < COUNT(entry_table); a++) {
        for (size_t b = 0; b < COUNT(entry_table); b += few ? 7 : 1) {
            guarded_check(bytes, length, entry_table[a], entry_table[b]);
        }
    }
}

/* Bytes of one length that are filled in one of several ways. */
static void fill(uint8_t *bytes, size_t length, unsigned way, uint64_t *state)
{
    for (size_t k = 0; k < length; k++) {
        bytes[k] = way == 0 ? 0 : way == 1 ? 255 : (uint8_t)(next_random(state) >> 32);
    }
    if (way == 3 && length >= SMALLEST_MENDED && length <= LONGEST_BOOK) {
        make_random_book(bytes, length, state);
    }
}

/* All lengths from 0 to 64 and round the longest book's. */
static void check_lengths(uint64_t *state)
{
    static uint8_t bytes[LONGEST_BOOK + 8];
    for (size_t length = 0; length <= LONGEST_BOOK + 8; length = length == 64 ? LONGEST_BOOK - 2 : length + 1) {
        for (unsigned way = 0; way < 4; way++) {
            fill(bytes, length, way, state);
            check_all_entries(bytes, length);
        }
    }
}

/* A length of more than 32 bits is no short one: 4 GiB and 16 zero bytes, which take no memory. */
static unsigned long check_long(void)
{
    size_t length = ((size_t)1 << 32) + SHORTEST_BOOK;
    uint8_t *bytes = mmap(NULL, length, PROT_READ, MAP_PRIVATE | MAP_ANONYMOUS | MAP_NORESERVE, -1, 0);
    if (bytes == MAP_FAILED) {
        perror("mmap");
        exit(2);
    }
    uint32_t answer = register_relation(bytes, length, 0, 0);
    munmap(bytes, length);
    if (answer != REGISTER_REFUSED + 1) {
        fprintf(stderr, "fault: 2^32 + 16 bytes are answered with %" PRIu32 "\n", answer);
        abort();
    }
    return 1;
}

/* A sample book: all its entries, and two more; then its beginnings and ends, and copies with one byte changed. */
static void check_sample(const char *path)
{
    static const uint8_t changes[] = {1, 2, 4, 8, 16, 32, 64, 128, 255};
    static uint8_t bytes[LONGEST_BOOK + 1];
    FILE *file = fopen(path, "rb");
    if (file == NULL) {
        perror(path);
        exit(2);
    }
    size_t length = fread(bytes, 1, sizeof bytes, file);
    fclose(file);
    size_t entries = entries_of(bytes, length);

    for (size_t a = 0; a < entries + 2; a++) {
        for (size_t b = 0; b < entries + 2; b += few ? 9 : 1) {
            guarded_check(bytes, length, a, b);
        }
    }
    for (size_t part = 0; part < length; part += few ? 9 : 1) {
        guarded_check(bytes, part, 0, 1);
        guarded_check(bytes + length - part, part, 0, 1);
    }
    for (size_t k = 0; k < length; k++) {
        for (size_t c = 0; c < COUNT(changes); c += few ? 4 : 1) {
            bytes[k] ^= changes[c];
            guarded_check(bytes, length, k % entries, (k + c) % entries);
            bytes[k] ^= changes[c];
        }
    }
}

/* Random books, each as it was made, and then with some bytes changed. */
static void check_random(uint64_t books, uint64_t *state)
{
    static uint8_t bytes[LONGEST_BOOK];
    for (uint64_t book = 0; book < books; book++) {
        size_t limit = random_below(state, 16) == 0 ? LONGEST_BOOK : 700;
        size_t length = SMALLEST_MENDED + random_below(state, limit - SMALLEST_MENDED + 1);
        make_random_book(bytes, length, state);
        unsigned refusal = refusal_of(bytes, length);
        if (refusal != 0 && refusal != 12 && refusal != 13) {
            fprintf(stderr, "the maker of books made one that is refused with %u\n", refusal);
            abort();
        }
        size_t entries = entries_of(bytes, length);
        for (unsigned turn = 0; turn < 4; turn++) {
            guarded_check(bytes, length, random_below(state, entries + 1), random_below(state, entries + 1));
        }
        for (size_t spoilt = 1 + random_below(state, 4); spoilt > 0; spoilt--) {
            size_t tail = random_below(state, 2) == 0 ? SHORTEST_BOOK : length;
            bytes[length - 1 - random_below(state, tail)] = (uint8_t)(next_random(state) >> 32);
        }
        guarded_check(bytes, length, random_below(state, entries), random_below(state, entries));
    }
}

int main(int argc, char **argv)
{
    if (argc > 1 && strcmp(argv[1], "--few") == 0) {
        few = true;
        argc--;
        argv++;
    }
    if (argc < 4) {
        fprintf(stderr, "usage: table [--few] SECONDS SEED BOOKS SAMPLE..\n");
        return 2;
    }
    uint64_t state = strtoull(argv[2], NULL, 10) + UINT64_C(0x9E3779B97F4A7C15);
    guarded_open(atof(argv[1]));
    check_lengths(&state);
    unsigned long others = check_long();
    for (int k = 4; k < argc; k++) {
        check_sample(argv[k]);
    }
    check_random(strtoull(argv[3], NULL, 10), &state);
    guarded_print();
    printf("calls: %lu\n", guarded_calls() + others);
    return 0;
}
