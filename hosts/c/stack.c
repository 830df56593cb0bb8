/*
 * How much stack a call takes: stack BOOKS SAMPLE.. makes calls on a stack that was painted before, and looks how far
 * down the paint is gone. It asks every two entries of the samples, the last entry and every other one of books with as many
 * choices as there can be, and two entries of each of so many random books. It prints the most that was taken: the call's
 * own frame and all below it. A call that has not ended after a tenth of a second is left, and what it took until then
 * counts.
 */
#define _GNU_SOURCE
#include <setjmp.h>
#include <signal.h>
#include <stdio.h>
#include <stdlib.h>
#include <string.h>
#include <sys/mman.h>
#include <sys/time.h>
#include <ucontext.h>

#include "books.h"
#include "register.h"

enum { PAGE = 4096, STACK = 128 * 1024, PAINT = 0xA5, CHAIN = 60, TICK_MICROSECONDS = 10000, TICKS = 10 };

static uint8_t *stack;
static ucontext_t here;
static ucontext_t there;

static const uint8_t *book;
static size_t book_length;
static size_t entry[2];
static uint8_t *top;

static sigjmp_buf back;
static volatile sig_atomic_t inside;
static volatile sig_atomic_t ticks;
static unsigned long calls;
static volatile unsigned long stops;

/* On a stack of its own, so that the painted one is not touched. */
static void tick(int number)
{
    (void)number;
    ticks++;
    if (inside && ticks > TICKS) {
        inside = 0;
        siglongjmp(back, 1);
    }
}

static void call(void)
{
    top = __builtin_frame_address(0);
    inside = 1;
    register_relation(book, book_length, entry[0], entry[1]);
    inside = 0;
}

/* The bytes that one call took. A call that wants more than the stack has is ended by a signal, at the page below it. */
static size_t taken(const uint8_t *bytes, size_t length, size_t first, size_t second)
{
    book = bytes;
    book_length = length;
    entry[0] = first;
    entry[1] = second;
    memset(stack, PAINT, STACK);
    getcontext(&there);
    there.uc_stack.ss_sp = stack;
    there.uc_stack.ss_size = STACK;
    there.uc_link = &here;
    makecontext(&there, call, 0);
    calls++;
    ticks = 0;
    if (sigsetjmp(back, 1) == 0) {
        swapcontext(&here, &there);
    } else {
        stops++;
    }
    size_t depth = 0;
    while (stack[depth] == PAINT) {
        depth++;
    }
    return (size_t)(top - (stack + depth));
}

static size_t larger(size_t a, size_t b)
{
    return a > b ? a : b;
}

/* The most that any two of the entries take, the first from `from` on, two that the book does not have among them. */
static size_t of_book(const uint8_t *bytes, size_t length, size_t from)
{
    size_t entries = entries_of(bytes, length);
    size_t worst = 0;
    for (size_t a = from; a < entries + 2; a++) {
        for (size_t b = 0; b < entries + 2; b++) {
            worst = larger(worst, taken(bytes, length, a, b));
        }
    }
    return worst;
}

int main(int argc, char **argv)
{
    static uint8_t bytes[LONGEST_BOOK];
    uint64_t state = UINT64_C(0x9E3779B97F4A7C15);
    uint8_t *whole = mmap(NULL, PAGE + STACK, PROT_NONE, MAP_PRIVATE | MAP_ANONYMOUS, -1, 0);
    if (argc < 2 || whole == MAP_FAILED || mprotect(whole + PAGE, STACK, PROT_READ | PROT_WRITE) != 0) {
        fprintf(stderr, "usage: stack BOOKS SAMPLE..\n");
        return 2;
    }
    stack = whole + PAGE;
    static uint8_t other[64 * 1024];
    stack_t aside = {.ss_sp = other, .ss_size = sizeof other};
    struct sigaction action = {.sa_handler = tick, .sa_flags = SA_ONSTACK | SA_RESTART};
    struct itimerval timer = {{0, TICK_MICROSECONDS}, {0, TICK_MICROSECONDS}};
    if (sigaltstack(&aside, NULL) != 0 || sigaction(SIGVTALRM, &action, NULL) != 0
        || setitimer(ITIMER_VIRTUAL, &timer, NULL) != 0) {
        perror("setitimer");
        return 2;
    }

    size_t worst = taken(bytes, 0, 0, 0);
    printf("stack of a refused length: %zu bytes\n", worst);
    for (int k = 2; k < argc; k++) {
        FILE *file = fopen(argv[k], "rb");
        if (file == NULL) {
            perror(argv[k]);
            return 2;
        }
        size_t length = fread(bytes, 1, sizeof bytes, file);
        fclose(file);
        size_t most = of_book(bytes, length, 0);
        printf("stack of %s: %zu bytes\n", argv[k], most);
        worst = larger(worst, most);
    }
    for (size_t rules = 0; rules <= 2; rules++) {
        size_t length = make_chain_book(bytes, CHAIN, rules);
        size_t most = of_book(bytes, length, CHAIN - 1);
        printf("stack of a chain of %d entries, %zu rules: %zu bytes\n", CHAIN, rules, most);
        worst = larger(worst, most);
    }
    size_t most = 0;
    for (unsigned long left = strtoul(argv[1], NULL, 10); left > 0; left--) {
        size_t length = SMALLEST_MENDED + random_below(&state, 200);
        make_random_book(bytes, length, &state);
        size_t entries = entries_of(bytes, length);
        most = larger(most, taken(bytes, length, random_below(&state, entries), random_below(&state, entries)));
    }
    printf("stack of %s random books: %zu bytes\n", argv[1], most);
    printf("most stack: %zu bytes in %lu calls, of which %lu were left\n", larger(worst, most), calls, stops);
    return 0;
}
