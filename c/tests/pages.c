/* Times of lookups at random addresses by a handle, and over plain words, each on small pages and on huge ones, in one run:
 * the median of ROUNDS pieces. With them, how much memory lies on huge pages. */
#define _DEFAULT_SOURCE
#include "saxiko.h"

#include <stdio.h>
#include <stdlib.h>
#include <string.h>
#include <sys/mman.h>
#include <sys/prctl.h>
#include <time.h>

/* A function that is compiled by itself. */
#ifdef __clang__
#define ALONE __attribute__((noinline))
#else
#define ALONE __attribute__((noipa))
#endif

enum { ROUTES = 100000, LOOKUPS = 1000000, ROUNDS = 61, FIRSTS = 1 << 24, HUGE_PAGE = 1 << 21 };

/* The same routes twice. All have at most 24 bits, so that a lookup reads one word. */
struct place {
    struct saxiko_table table;
    uint32_t *words;
};

static void stop(const char *what) {
    fprintf(stderr, "pages: %s\n", what);
    exit(1);
}

static uint32_t drawn(uint32_t last) { return last * 1664525 + 1013904223; }

/* Huge pages are for those who ask, as the library does, or for none. */
static void open_place(struct place *place, int is_huge) {
    static const struct saxiko_config config = SAXIKO_DEFAULTS;
    static struct saxiko_route routes[ROUTES];
    uint32_t seed = 1;
    size_t bad;
    void *words;
    for (int k = 0; k < ROUTES; k++) {
        seed = drawn(seed);
        routes[k] = (struct saxiko_route){.addr = seed, .hop = seed >> 8, .depth = (uint8_t)(16 + (seed >> 4) % 9)};
    }
    if (prctl(PR_SET_THP_DISABLE, !is_huge, 0, 0, 0) != 0)
        stop("prctl is refused");
    if (saxiko_table_load(&place->table, &config, routes, ROUTES, &bad) != 0)
        stop("no table");
    if (posix_memalign(&words, HUGE_PAGE, FIRSTS * sizeof *place->words) != 0)
        stop("no memory");
    (void)madvise(words, FIRSTS * sizeof *place->words, MADV_HUGEPAGE);
    place->words = words;
    for (uint32_t k = 0; k < FIRSTS; k++)
        if (saxiko_table_lookup(&place->table, k << 8, &place->words[k]) != 0)
            place->words[k] = UINT32_MAX;
}

ALONE static int32_t word_lookup(const uint32_t *words, uint32_t addr, uint32_t *hop) {
    uint32_t word = words[addr >> 8];
    if (word == UINT32_MAX)
        return -ENOENT;
    *hop = word;
    return 0;
}

ALONE static uint32_t by_words(struct place *place, uint32_t addr) {
    uint32_t sum = 0, hop = 0;
    for (int k = 0; k < LOOKUPS; k++, addr = drawn(addr))
        sum += word_lookup(place->words, addr, &hop) == 0 ? hop : 7;
    return sum;
}

ALONE static uint32_t by_handle(struct place *place, uint32_t addr) {
    uint32_t sum = 0, hop = 0;
    for (int k = 0; k < LOOKUPS; k++, addr = drawn(addr))
        sum += saxiko_table_lookup(&place->table, addr, &hop) == 0 ? hop : 7;
    return sum;
}

static double seconds(void) {
    struct timespec now;
    clock_gettime(CLOCK_MONOTONIC, &now);
    return (double)now.tv_sec + (double)now.tv_nsec / 1e9;
}

static int ascending(const void *a, const void *b) {
    double x = *(const double *)a, y = *(const double *)b;
    return (x > y) - (x < y);
}

static double median(double *times) {
    qsort(times, ROUNDS, sizeof *times, ascending);
    return times[ROUNDS / 2];
}

/* How many MB of the process lie on huge pages. */
static long on_huge_pages(void) {
    FILE *file = fopen("/proc/self/smaps_rollup", "r");
    char line[256];
    long kilobytes = -1;
    while (file && fgets(line, sizeof line, file))
        (void)sscanf(line, "AnonHugePages: %ld", &kilobytes);
    if (file)
        fclose(file);
    return kilobytes < 0 ? -1 : kilobytes >> 10;
}

int main(void) {
    static struct place places[2];
    static uint32_t (*const ways[2])(struct place *, uint32_t) = {by_words, by_handle};
    static const char *const names[2] = {"plain words", "a handle"};
    static double times[2][2][ROUNDS];
    long on_huge[2];
    for (int is_huge = 0; is_huge < 2; is_huge++) {
        open_place(&places[is_huge], is_huge);
        on_huge[is_huge] = on_huge_pages();
    }
    for (int round = 0; round < ROUNDS; round++) {
        uint32_t sums[2][2];
        for (int way = 0; way < 2; way++)
            for (int is_huge = 0; is_huge < 2; is_huge++) {
                double start = seconds();
                sums[way][is_huge] = ways[way](&places[is_huge], 7919 * (uint32_t)round);
                times[way][is_huge][round] = (seconds() - start) / LOOKUPS * 1e9;
            }
        if (sums[0][0] != sums[0][1] || sums[0][0] != sums[1][0] || sums[0][0] != sums[1][1])
            stop("the answers differ");
    }
    for (int way = 0; way < 2; way++)
        printf("ns for a random lookup by %s: %.1f on small pages, %.1f on huge ones\n", names[way],
               median(times[way][0]), median(times[way][1]));
    printf("MB on huge pages: %ld of a table and its plain words, %ld of both\n", on_huge[0], on_huge[1]);
    return 0;
}
