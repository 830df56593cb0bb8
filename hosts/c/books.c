/* See books.h; docs/book-format.md has the format, docs/denials.md the refusals and docs/search.md the working entries. */
#include "books.h"

#include <stdbool.h>
#include <string.h>

enum { ROLES, PAIRS, CONCEPTS, RULES, SECTIONS };
enum { TRAILER = 16, ROLE_LIMIT = 64, NAME_LIMIT = 64, WIDTH_LIMIT = 64 };
enum { NOTHING, EVERYTHING, NAME, NOT, AND, OR, EXISTS, FORALL, NONE_OF, KINDS };

static const size_t record_bytes[SECTIONS] = {1, 2, 4, 2};
static const size_t least[SECTIONS] = {0, 0, 1, 0};
static const size_t most[SECTIONS] = {ROLE_LIMIT, 256, 60, 32};

struct layout {
    size_t place[SECTIONS];
    size_t count[SECTIONS];
};

uint64_t next_random(uint64_t *state)
{
    *state ^= *state << 13;
    *state ^= *state >> 7;
    *state ^= *state << 17;
    return *state * UINT64_C(0x2545F4914F6CDD1D);
}

size_t random_below(uint64_t *state, size_t limit)
{
    return (size_t)((next_random(state) >> 16) % limit);
}

static size_t number_at(const uint8_t *bytes, size_t place)
{
    return bytes[place] + ((size_t)bytes[place + 1] << 8);
}

static void put_number(uint8_t *bytes, size_t place, size_t number)
{
    bytes[place] = (uint8_t)(number & 255);
    bytes[place + 1] = (uint8_t)(number >> 8);
}

static struct layout layout_of(const uint8_t *bytes, size_t length)
{
    struct layout found;
    for (size_t s = 0; s < SECTIONS; s++) {
        found.place[s] = number_at(bytes, length - TRAILER + 4 * s);
        found.count[s] = number_at(bytes, length - TRAILER + 4 * s + 2);
    }
    return found;
}

static void put_layout(uint8_t *bytes, size_t length, const struct layout *layout)
{
    for (size_t s = 0; s < SECTIONS; s++) {
        put_number(bytes, length - TRAILER + 4 * s, layout->place[s]);
        put_number(bytes, length - TRAILER + 4 * s + 2, layout->count[s]);
    }
}

size_t entries_of(const uint8_t *bytes, size_t length)
{
    return layout_of(bytes, length).count[CONCEPTS];
}

static bool is_concept(const uint8_t *record, size_t entry, size_t roles, bool named[NAME_LIMIT])
{
    uint8_t kind = record[0];
    uint8_t first = record[1];
    uint8_t second = record[2];

    if (record[3] != 0) {
        return false;
    }
    switch (kind) {
    case NOTHING:
    case EVERYTHING:
        return first == 0 && second == 0;
    case NAME:
        if (first >= NAME_LIMIT || named[first] || second != 0) {
            return false;
        }
        named[first] = true;
        return true;
    case NOT:
        return first < entry && second == 0;
    case AND:
    case OR:
        return first < entry && second < entry;
    case EXISTS:
    case FORALL:
    case NONE_OF:
        return first < roles && second < entry;
    default:
        return false;
    }
}

/* Puts into each row of roles, a bit for each role that it is below, what a chain leads to. */
static void close_rows(uint64_t rows[ROLE_LIMIT], size_t count)
{
    for (size_t via = 0; via < count; via++) {
        for (size_t r = 0; r < count; r++) {
            rows[r] |= (rows[r] >> via & 1) != 0 ? rows[via] : 0;
        }
    }
}

/* The number of the working entries of a book that can be read. */
static size_t width_of(const uint8_t *bytes, const struct layout *layout)
{
    const uint8_t *roles = bytes + layout->place[ROLES];
    const uint8_t *pairs = bytes + layout->place[PAIRS];
    const uint8_t *concepts = bytes + layout->place[CONCEPTS];
    uint64_t rows[ROLE_LIMIT] = {0};

    for (size_t k = 0; k < layout->count[PAIRS]; k++) {
        rows[pairs[2 * k]] |= UINT64_C(1) << pairs[2 * k + 1];
    }
    close_rows(rows, layout->count[ROLES]);
    size_t width = layout->count[CONCEPTS] + layout->count[RULES] + 2;
    for (size_t i = 0; i < layout->count[CONCEPTS]; i++) {
        uint8_t kind = concepts[4 * i];
        uint8_t role = concepts[4 * i + 1];
        if (kind < EXISTS || roles[role] == 1) {
            continue;
        }
        for (size_t p = 0; p < layout->count[ROLES]; p++) {
            width += roles[p] == 1 && (rows[p] >> role & 1) != 0;
        }
    }
    return width;
}

unsigned refusal_of(const uint8_t *bytes, size_t length)
{
    if (length < SHORTEST_BOOK || length > LONGEST_BOOK) {
        return 1;
    }
    struct layout layout = layout_of(bytes, length);
    for (size_t s = 0; s < SECTIONS; s++) {
        if (layout.count[s] < least[s] || layout.count[s] > most[s]) {
            return 2;
        }
    }
    size_t end = layout.place[ROLES];
    for (size_t s = 0; s < SECTIONS; s++) {
        if (layout.place[s] < end) {
            return 3;
        }
        end = layout.place[s] + layout.count[s] * record_bytes[s];
    }
    if (end > length - TRAILER) {
        return 3;
    }
    for (size_t r = 0; r < layout.count[ROLES]; r++) {
        if (bytes[layout.place[ROLES] + r] > 1) {
            return 4;
        }
    }
    for (size_t k = 0; k < 2 * layout.count[PAIRS]; k++) {
        if (bytes[layout.place[PAIRS] + k] >= layout.count[ROLES]) {
            return 5;
        }
    }
    bool named[NAME_LIMIT] = {false};
    for (size_t i = 0; i < layout.count[CONCEPTS]; i++) {
        if (!is_concept(bytes + layout.place[CONCEPTS] + 4 * i, i, layout.count[ROLES], named)) {
            return 6;
        }
    }
    for (size_t k = 0; k < 2 * layout.count[RULES]; k++) {
        if (bytes[layout.place[RULES] + k] >= layout.count[CONCEPTS]) {
            return 7;
        }
    }
    if (layout.count[ROLES] == ROLE_LIMIT) {
        return 12;
    }
    return width_of(bytes, &layout) > WIDTH_LIMIT ? 13 : 0;
}

/* Counts that are in range and fit, and places that leave what is over to makers' notes. */
static void mend_layout(struct layout *layout, size_t room, uint64_t *state)
{
    size_t used = 0;
    for (size_t s = 0; s < SECTIONS; s++) {
        if (layout->count[s] > most[s]) {
            layout->count[s] %= most[s] + 1;
        }
        if (layout->count[s] < least[s]) {
            layout->count[s] = least[s];
        }
    }
    if (layout->count[ROLES] == 0) {
        layout->count[PAIRS] = 0;
    }
    for (size_t s = 0; s < SECTIONS; s++) {
        used += layout->count[s] * record_bytes[s];
    }
    while (used > room) {
        for (size_t s = 0; s < SECTIONS; s++) {
            if (used > room && layout->count[s] > least[s]) {
                layout->count[s]--;
                used -= record_bytes[s];
            }
        }
    }
    if (layout->count[ROLES] == 0) {
        layout->count[PAIRS] = 0;
    }
    size_t spare = room - used;
    size_t end = 0;
    for (size_t s = 0; s < SECTIONS; s++) {
        size_t note = random_below(state, 3) == 0 ? random_below(state, spare + 1) : 0;
        spare -= note;
        layout->place[s] = end + note;
        end = layout->place[s] + layout->count[s] * record_bytes[s];
    }
}

static void mend_concept(uint8_t *record, size_t entry, size_t roles, bool named[NAME_LIMIT])
{
    size_t kinds = entry == 0 ? NAME + 1 : roles == 0 ? OR + 1 : KINDS;
    record[0] = (uint8_t)(record[0] % kinds);
    record[3] = 0;
    switch (record[0]) {
    case NOTHING:
    case EVERYTHING:
        record[1] = 0;
        record[2] = 0;
        break;
    case NAME:
        record[1] %= NAME_LIMIT;
        while (named[record[1]]) {
            record[1] = (uint8_t)((record[1] + 1) % NAME_LIMIT);
        }
        named[record[1]] = true;
        record[2] = 0;
        break;
    case NOT:
        record[1] = (uint8_t)(record[1] % entry);
        record[2] = 0;
        break;
    case AND:
    case OR:
        record[1] = (uint8_t)(record[1] % entry);
        record[2] = (uint8_t)(record[2] % entry);
        break;
    default:
        record[1] = (uint8_t)(record[1] % roles);
        record[2] = (uint8_t)(record[2] % entry);
        break;
    }
}

void mend(uint8_t *bytes, size_t length, uint64_t *state)
{
    struct layout layout = layout_of(bytes, length);
    if (refusal_of(bytes, length) <= 3 && refusal_of(bytes, length) != 0) {
        mend_layout(&layout, length - TRAILER, state);
    } else if (layout.count[ROLES] == 0) {
        layout.count[PAIRS] = 0;
    }
    put_layout(bytes, length, &layout);
    for (size_t r = 0; r < layout.count[ROLES]; r++) {
        bytes[layout.place[ROLES] + r] &= 1;
    }
    for (size_t k = 0; k < 2 * layout.count[PAIRS]; k++) {
        uint8_t *role = bytes + layout.place[PAIRS] + k;
        *role = (uint8_t)(*role % layout.count[ROLES]);
    }
    bool named[NAME_LIMIT] = {false};
    for (size_t i = 0; i < layout.count[CONCEPTS]; i++) {
        mend_concept(bytes + layout.place[CONCEPTS] + 4 * i, i, layout.count[ROLES], named);
    }
    for (size_t k = 0; k < 2 * layout.count[RULES]; k++) {
        uint8_t *entry = bytes + layout.place[RULES] + k;
        *entry = (uint8_t)(*entry % layout.count[CONCEPTS]);
    }
}

void make_random_book(uint8_t *bytes, size_t length, uint64_t *state)
{
    struct layout layout = {{0}, {0}};
    for (size_t k = 0; k < length; k++) {
        bytes[k] = (uint8_t)(next_random(state) >> 32);
    }
    for (size_t s = 0; s < SECTIONS; s++) {
        size_t limit = most[s] + 1;
        for (size_t again = random_below(state, 3); again > 0; again--) {
            limit = 1 + random_below(state, limit);
        }
        layout.count[s] = random_below(state, limit);
    }
    mend_layout(&layout, length - TRAILER, state);
    put_layout(bytes, length, &layout);
    mend(bytes, length, state);
}

size_t make_chain_book(uint8_t *bytes, size_t entries, size_t rules)
{
    size_t length = 4 * entries + 2 * rules + TRAILER;
    struct layout layout = {{0, 0, 0, 4 * entries}, {0, 0, entries, rules}};

    memset(bytes, 0, length);
    for (size_t i = 0; i < entries; i++) {
        uint8_t *record = bytes + 4 * i;
        record[0] = i < 2 ? NAME : OR;
        record[1] = (uint8_t)(i < 2 ? i : i - 1);
        record[2] = (uint8_t)(i < 2 ? 0 : i - 2);
    }
    for (size_t k = 0; k < rules; k++) {
        bytes[4 * entries + 2 * k] = (uint8_t)(k % 2);
        bytes[4 * entries + 2 * k + 1] = (uint8_t)((k + 1) % entries);
    }
    put_layout(bytes, length, &layout);
    return length;
}
