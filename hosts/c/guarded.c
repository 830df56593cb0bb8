/* See guarded.h. */
#define _GNU_SOURCE
#include "guarded.h"

#include <inttypes.h>
#include <setjmp.h>
#include <signal.h>
#include <stdbool.h>
#include <stdio.h>
#include <stdlib.h>
#include <string.h>
#include <sys/mman.h>
#include <sys/time.h>
#include <unistd.h>

#include "books.h"
#include "register.h"

enum { TICK_MICROSECONDS = 10000, ANSWERS = 128 };
enum { BEFORE_GUARD, BEHIND_GUARD, IN_BLOCK };

/* One memory seen twice: `written` is for us, `lent` for the call, which may only read it, with a guard page on either side. */
static uint8_t *written;
static const uint8_t *lent;

static unsigned long calls;
static unsigned long stops;
static unsigned long answered[ANSWERS];

static sigjmp_buf back;
static volatile sig_atomic_t inside;
static volatile sig_atomic_t ticks;
static int tick_limit;

static void die(const char *what)
{
    perror(what);
    exit(2);
}

/* The call keeps nothing and allocates nothing, so it can be left from a signal handler. */
static void tick(int number)
{
    (void)number;
    ticks++;
    if (inside && ticks > tick_limit) {
        inside = 0;
        siglongjmp(back, 1);
    }
}

void guarded_open(double seconds)
{
    size_t page = (size_t)sysconf(_SC_PAGESIZE);
    int file = memfd_create("book", 0);
    if (file < 0 || ftruncate(file, MOST_PLACED) != 0) {
        die("memfd_create");
    }
    written = mmap(NULL, MOST_PLACED, PROT_READ | PROT_WRITE, MAP_SHARED, file, 0);
    uint8_t *whole = mmap(NULL, MOST_PLACED + 2 * page, PROT_NONE, MAP_PRIVATE | MAP_ANONYMOUS, -1, 0);
    if (written == MAP_FAILED || whole == MAP_FAILED) {
        die("mmap");
    }
    if (mmap(whole + page, MOST_PLACED, PROT_READ, MAP_SHARED | MAP_FIXED, file, 0) == MAP_FAILED) {
        die("mmap");
    }
    lent = whole + page;

    tick_limit = (int)(seconds * 1e6 / TICK_MICROSECONDS) + 1;
    struct sigaction action = {.sa_handler = tick, .sa_flags = SA_NODEFER | SA_RESTART};
    struct itimerval timer = {{0, TICK_MICROSECONDS}, {0, TICK_MICROSECONDS}};
    if (sigaction(SIGVTALRM, &action, NULL) != 0 || setitimer(ITIMER_VIRTUAL, &timer, NULL) != 0) {
        die("setitimer");
    }
}

static _Noreturn void fault(const char *what, const uint8_t *bytes, size_t length, size_t first, size_t second,
    uint32_t answer)
{
    fprintf(stderr, "fault: %s: entries %zu and %zu, answer %" PRIu32 ", length %zu, book", what, first, second, answer,
        length);
    for (size_t k = 0; k < length; k++) {
        fprintf(stderr, " %02x", bytes[k]);
    }
    fputc('\n', stderr);
    abort();
}

/* The answer of one call, or that it was stopped. */
static uint32_t timed(const uint8_t *book, size_t length, size_t first, size_t second)
{
    calls++;
    ticks = 0;
    if (sigsetjmp(back, 0) != 0) {
        stops++;
        return STOPPED;
    }
    inside = 1;
    uint32_t answer = register_relation(book, length, first, second);
    inside = 0;
    if (answer < ANSWERS) {
        answered[answer]++;
    }
    return answer;
}

/* The same, with the book put in its place first, and compared after the call. */
static uint32_t placed(int place, const uint8_t *bytes, size_t length, size_t first, size_t second)
{
    /* A block of its own begins at any place of its alignment, and ends with the book. */
    size_t skip = place == IN_BLOCK ? calls % 16 : 0;
    uint8_t *block = NULL;
    const uint8_t *book = lent;
    if (place == IN_BLOCK) {
        block = malloc(length + skip);
        if (block == NULL && length + skip > 0) {
            die("malloc");
        }
        book = block + skip;
        memcpy(block + skip, bytes, length);
    } else {
        size_t offset = place == BEFORE_GUARD ? MOST_PLACED - length : 0;
        memcpy(written + offset, bytes, length);
        book = lent + offset;
    }
    uint32_t answer = timed(book, length, first, second);
    if (memcmp(book, bytes, length) != 0) {
        fault("the book was changed", bytes, length, first, second, answer);
    }
    free(block);
    return answer;
}

static uint32_t mirrored(uint32_t answer)
{
    return answer == REGISTER_BELOW ? REGISTER_ABOVE : answer == REGISTER_ABOVE ? REGISTER_BELOW : answer;
}

/* Whether a call may give this answer; `refusal` is that of the book, `entries` how many it has. */
static bool is_possible(uint32_t answer, unsigned refusal, size_t entries, size_t first, size_t second)
{
    if (refusal != 0) {
        return answer == REGISTER_REFUSED + refusal;
    }
    if (first >= entries) {
        return answer == REGISTER_REFUSED + 8;
    }
    if (second >= entries) {
        return answer == REGISTER_REFUSED + 8 || answer == REGISTER_REFUSED + 15;
    }
    if (first == second) {
        return answer == REGISTER_EQUAL || answer == REGISTER_REFUSED + 15;
    }
    return answer <= REGISTER_APART || answer == REGISTER_REFUSED + 15;
}

uint32_t guarded_check(const uint8_t *bytes, size_t length, size_t first, size_t second)
{
    unsigned refusal = refusal_of(bytes, length);
    size_t entries = refusal == 1 ? 0 : entries_of(bytes, length);

    uint32_t answer = placed(BEFORE_GUARD, bytes, length, first, second);
    if (answer == STOPPED) {
        return STOPPED;
    }
    if (!is_possible(answer, refusal, entries, first, second)) {
        fault("an answer that is not possible", bytes, length, first, second, answer);
    }
    uint32_t reverse = placed(BEHIND_GUARD, bytes, length, second, first);
    if (reverse != STOPPED) {
        /* Where one entry is not in the book, the other one is filed only if it comes first. */
        bool one_absent = refusal == 0 && (first >= entries) != (second >= entries);
        if (!is_possible(reverse, refusal, entries, second, first) || (!one_absent && reverse != mirrored(answer))) {
            fault("the entries exchanged are answered otherwise", bytes, length, second, first, reverse);
        }
    }
    uint32_t again = placed(IN_BLOCK, bytes, length, first, second);
    if (again != STOPPED && again != answer) {
        fault("a further call is answered otherwise", bytes, length, first, second, again);
    }
    return answer;
}

unsigned long guarded_calls(void)
{
    return calls;
}

unsigned long guarded_stops(void)
{
    return stops;
}

void guarded_print(void)
{
    printf("answers:");
    for (unsigned answer = 0; answer < ANSWERS; answer++) {
        if (answered[answer] != 0) {
            printf(" %u: %lu,", answer, answered[answer]);
        }
    }
    printf(" stopped: %lu\n", stops);
}
