/* Times the layers of the search through the functions that the crate `probes` exports, and prints a table.
 *
 *     main FOLDER
 *
 * FOLDER is one that bench/books.py wrote: FOLDER/cases says what is timed. Each figure is the least of several runs. */
#include <inttypes.h>
#include <stddef.h>
#include <stdint.h>
#include <stdio.h>
#include <stdlib.h>
#include <string.h>
#include <time.h>

/* From crates/probes/src/lib.rt; a slice is a pointer and a length. */
size_t probe_width(const uint8_t *book, size_t len);
uint64_t probe_plan(const uint8_t *book, size_t len, uint64_t times);
uint64_t probe_labels(const uint8_t *book, size_t len, uint64_t plus, uint64_t minus, uint64_t limit, uint64_t times);
uint64_t probe_seeds(const uint8_t *book, size_t len, uint64_t plus, uint64_t minus, uint64_t times);
uint32_t probe_search(const uint8_t *book, size_t len, uint64_t plus, uint64_t minus, size_t nodes, uint64_t times);
size_t probe_standing(const uint8_t *book, size_t len, uint64_t plus, uint64_t minus);

enum {
    LONGEST_BOOK = 8192,
    MOST_NODES = 4096,
    RUNS = 15,
    FEW_RUNS = 5
};

/* A run is made at least so long, so that the making of the plan, once in each, does not count. */
static const double SHORTEST_RUN = 4e6; /* ns */

static const char *const ANSWERS[] = {"failed", "stands", "no room", "refused"};

struct book {
    uint8_t bytes[LONGEST_BOOK];
    size_t len;
};

/* What a run does `times` times over; `limit` is a limit of expansions or a number of nodes. */
struct job {
    void (*run)(const struct job *job, uint64_t times);
    const struct book *book;
    uint64_t plus;
    uint64_t minus;
    uint64_t limit;
};

static volatile uint64_t sink; /* so that no result counts as unused */

static void run_plan(const struct job *j, uint64_t times)
{
    sink = probe_plan(j->book->bytes, j->book->len, times);
}

static void run_labels(const struct job *j, uint64_t times)
{
    sink = probe_labels(j->book->bytes, j->book->len, j->plus, j->minus, j->limit, times);
}

static void run_seeds(const struct job *j, uint64_t times)
{
    sink = probe_seeds(j->book->bytes, j->book->len, j->plus, j->minus, times);
}

static void run_search(const struct job *j, uint64_t times)
{
    sink = probe_search(j->book->bytes, j->book->len, j->plus, j->minus, (size_t)j->limit, times);
}

static _Noreturn void fail(const char *what, const char *which)
{
    fprintf(stderr, "bench: %s: %s\n", what, which);
    exit(1);
}

/* The time of one run, in ns. */
static double clocked(const struct job *j, uint64_t times)
{
    struct timespec a, b;
    clock_gettime(CLOCK_MONOTONIC, &a);
    j->run(j, times);
    clock_gettime(CLOCK_MONOTONIC, &b);
    return (double)(b.tv_sec - a.tv_sec) * 1e9 + (double)(b.tv_nsec - a.tv_nsec);
}

/* The time of doing it once, in ns: the least of several runs. */
static double timed(const struct job *j, int runs, double shortest)
{
    uint64_t times = 1;
    double least = clocked(j, times);
    while (least < shortest && times < UINT64_C(1) << 40) {
        times *= 2;
        least = clocked(j, times);
    }
    for (int i = 1; i < runs; i++) {
        double t = clocked(j, times);
        if (t < least)
            least = t;
    }
    return least / (double)times;
}

static void load(struct book *book, const char *folder, const char *name)
{
    char path[512];
    int n = snprintf(path, sizeof path, "%s/%s.book", folder, name);
    if (n < 0 || (size_t)n >= sizeof path)
        fail("the name is too long", name);
    FILE *f = fopen(path, "rb");
    if (!f)
        fail("cannot open", path);
    book->len = fread(book->bytes, 1, sizeof book->bytes, f);
    fclose(f);
    if (probe_width(book->bytes, book->len) == 0)
        fail("there is no plan of the book", path);
}

/* A heading before the first line of each kind. */
static void heading(const char *what)
{
    static char last[16];
    if (strcmp(last, what) == 0)
        return;
    snprintf(last, sizeof last, "%s", what);
    if (strcmp(what, "labels") == 0)
        printf("\n%-22s %4s %12s %14s\n", "expansions of", "w", "expansions", "ns for each");
    else if (strcmp(what, "dead") == 0)
        printf("\n%-22s %4s %12s %14s\n", "no expansion of", "w", "ends tried", "ns for each");
    else if (strcmp(what, "seeds") == 0)
        printf("\n%-22s %4s %12s %14s\n", "successor seeds of", "w", "seeds", "ns for each");
    else if (strcmp(what, "failing") == 0)
        printf("\n%-22s %4s %12s %14s %10s %8s %14s\n", "search that fails", "w", "nodes lent", "us", "answer", "choices", "ns for each");
    else if (strcmp(what, "search") == 0)
        printf("\n%-22s %4s %12s %14s %10s %8s %14s\n", "search", "w", "nodes lent", "us", "answer", "used", "ns for each");
    else
        printf("\n%-22s %4s %12s %14s %10s %8s %8s %8s %14s\n", "all a not b", "w", "nodes lent", "us in all", "searches",
               "failed", "stand", "no room", "longest, us");
}

static void time_labels(const char *name, const struct book *book, uint64_t plus, uint64_t minus, uint64_t limit)
{
    struct job job = {run_labels, book, plus, minus, limit};
    uint64_t count = probe_labels(book->bytes, book->len, plus, minus, limit, 1);
    if (count == 0)
        fail("no expansion", name);
    printf("%-22s %4zu %12" PRIu64 " %14.1f\n", name, probe_width(book->bytes, book->len), count,
           timed(&job, RUNS, SHORTEST_RUN) / (double)count);
}

static void time_dead(const char *name, const struct book *book, uint64_t plus, uint64_t minus, uint64_t count)
{
    struct job job = {run_labels, book, plus, minus, 1};
    if (probe_labels(book->bytes, book->len, plus, minus, 1, 1) != 0)
        fail("an expansion", name);
    printf("%-22s %4zu %12" PRIu64 " %14.1f\n", name, probe_width(book->bytes, book->len), count,
           timed(&job, RUNS, SHORTEST_RUN) / (double)count);
}

static void time_seeds(const char *name, const struct book *book, uint64_t plus, uint64_t minus)
{
    struct job job = {run_seeds, book, plus, minus, 0};
    uint64_t count = probe_seeds(book->bytes, book->len, plus, minus, 1);
    if (count == 0)
        fail("no obligation", name);
    printf("%-22s %4zu %12" PRIu64 " %14.1f\n", name, probe_width(book->bytes, book->len), count,
           timed(&job, RUNS, SHORTEST_RUN) / (double)count);
}

/* In half as many nodes as stand in the end, in just as many, and in as many as can be lent. */
static void time_search(const char *name, const struct book *book, uint64_t plus, uint64_t minus)
{
    size_t stand = probe_standing(book->bytes, book->len, plus, minus);
    size_t lent[] = {stand / 2, stand, MOST_NODES};
    for (size_t i = 0; i < sizeof lent / sizeof *lent; i++) {
        struct job job = {run_search, book, plus, minus, lent[i]};
        uint32_t answer = probe_search(book->bytes, book->len, plus, minus, lent[i], 1);
        double t = timed(&job, RUNS, SHORTEST_RUN);
        size_t made = stand < lent[i] ? stand : lent[i];
        printf("%-22s %4zu %12zu %14.2f %10s %8zu %14.1f\n", name, probe_width(book->bytes, book->len), lent[i], t / 1e3,
               ANSWERS[answer], made, t / (double)(made ? made : 1));
    }
}

/* In the two nodes that it needs, in some more, and in as many as can be lent. */
static void time_failing(const char *name, const struct book *book, uint64_t plus, uint64_t minus, uint64_t choices)
{
    static const size_t LENT[] = {2, 64, MOST_NODES};
    for (size_t i = 0; i < sizeof LENT / sizeof *LENT; i++) {
        struct job job = {run_search, book, plus, minus, LENT[i]};
        uint32_t answer = probe_search(book->bytes, book->len, plus, minus, LENT[i], 1);
        double t = timed(&job, RUNS, SHORTEST_RUN);
        if (strcmp(ANSWERS[answer], "failed") != 0)
            fail("the search does not fail", name);
        printf("%-22s %4zu %12zu %14.2f %10s %8" PRIu64 " %14.1f\n", name, probe_width(book->bytes, book->len), LENT[i], t / 1e3,
               ANSWERS[answer], choices, t / (double)choices);
    }
}

static void time_pairs(const char *name, const struct book *book, unsigned count)
{
    enum { LENT = 64 };
    size_t w = probe_width(book->bytes, book->len);
    uint64_t root = UINT64_C(3) << (w - 2);
    unsigned answers[4] = {0};
    double sum = 0, longest = 0;
    for (unsigned a = 0; a < count; a++) {
        for (unsigned b = 0; b < count; b++) {
            struct job job = {run_search, book, root | UINT64_C(1) << a, UINT64_C(1) << b, LENT};
            double t = timed(&job, FEW_RUNS, SHORTEST_RUN / 4);
            answers[probe_search(book->bytes, book->len, job.plus, job.minus, LENT, 1)]++;
            sum += t;
            if (t > longest)
                longest = t;
        }
    }
    printf("%-22s %4zu %12d %14.1f %10u %8u %8u %8u %14.2f\n", name, w, LENT, sum / 1e3, count * count, answers[0], answers[1],
           answers[2], longest / 1e3);
}

static void time_plan(const char *name, const struct book *book)
{
    struct job job = {run_plan, book, 0, 0, 0};
    printf("%-22s %4zu %12s %14.2f us to read the book and make the plan\n", name, probe_width(book->bytes, book->len), "",
           timed(&job, RUNS, SHORTEST_RUN) / 1e3);
}

int main(int argc, char **argv)
{
    static struct book book;
    char path[512], line[256], what[16], name[64];
    if (argc != 2)
        fail("usage", "main FOLDER");
    int n = snprintf(path, sizeof path, "%s/cases", argv[1]);
    if (n < 0 || (size_t)n >= sizeof path)
        fail("the name is too long", argv[1]);
    FILE *cases = fopen(path, "r");
    if (!cases)
        fail("cannot open", path);
    while (fgets(line, sizeof line, cases)) {
        uint64_t plus = 0, minus = 0, limit = 0;
        unsigned count = 0;
        if (sscanf(line, "%15s %63s", what, name) != 2)
            fail("not a case", line);
        load(&book, argv[1], name);
        heading(what);
        if (strcmp(what, "pairs") == 0 && sscanf(line, "%*s %*s %u", &count) == 1) {
            time_pairs(name, &book, count);
            time_plan(name, &book);
        } else if (sscanf(line, "%*s %*s %" SCNx64 " %" SCNx64 " %" SCNu64, &plus, &minus, &limit) < 2)
            fail("not a case", line);
        else if (strcmp(what, "labels") == 0)
            time_labels(name, &book, plus, minus, limit);
        else if (strcmp(what, "dead") == 0)
            time_dead(name, &book, plus, minus, limit);
        else if (strcmp(what, "seeds") == 0)
            time_seeds(name, &book, plus, minus);
        else if (strcmp(what, "search") == 0)
            time_search(name, &book, plus, minus);
        else if (strcmp(what, "failing") == 0)
            time_failing(name, &book, plus, minus, limit);
        else
            fail("not a case", line);
        fflush(stdout);
    }
    fclose(cases);
    return 0;
}
