/* Lookups for a count of their instructions: `bench WAY` looks up the same addresses in the function `by_WAY`: over plain
 * words, by the handle of a table, and many at once by a table and by a reader. */
#include "saxiko.h"

#include <stdio.h>
#include <stdlib.h>
#include <string.h>

/* A function that is compiled by itself. */
#ifdef __clang__
#define ALONE __attribute__((noinline))
#else
#define ALONE __attribute__((noipa))
#endif

enum { LOOKUPS = 10000, FIRSTS = 1 << 24, IS_GROUP = 1 << 25, IS_HIT = 1 << 24 };

struct words {
    uint32_t *firsts, *seconds;
};

/* One word, or two where the first is that of a group: a function of its own, as that of a library is. */
ALONE static int32_t word_lookup(const struct words *words, uint32_t addr, uint32_t *hop) {
    uint32_t word = words->firsts[addr >> 8];
    if (word & IS_GROUP)
        word = words->seconds[(word & 0xffff) << 8 | (addr & 0xff)];
    if (!(word & IS_HIT))
        return -2;
    *hop = word & SAXIKO_HOP_MAX;
    return 0;
}

ALONE static uint32_t by_words(const struct words *words, const uint32_t *addrs) {
    uint32_t sum = 0, hop = 0;
    for (int k = 0; k < LOOKUPS; k++)
        sum += word_lookup(words, addrs[k], &hop) == 0 ? hop : 7;
    return sum;
}

ALONE static uint32_t by_handle(struct saxiko_table *table, const uint32_t *addrs) {
    uint32_t sum = 0, hop = 0;
    for (int k = 0; k < LOOKUPS; k++)
        sum += saxiko_table_lookup(table, addrs[k], &hop) == 0 ? hop : 7;
    return sum;
}

ALONE static void by_table_bulk(struct saxiko_table *table, const uint32_t *addrs, uint32_t *hops) {
    saxiko_table_lookup_bulk(table, addrs, LOOKUPS, hops, LOOKUPS, 7);
}

ALONE static void by_reader_bulk(struct saxiko_reader *reader, const uint32_t *addrs, uint32_t *hops) {
    saxiko_reader_lookup_bulk(reader, addrs, LOOKUPS, hops, LOOKUPS, 7);
}

static uint32_t sum_of(const uint32_t *hops) {
    uint32_t sum = 0;
    for (int k = 0; k < LOOKUPS; k++)
        sum += hops[k];
    return sum;
}

/* Half of 10.0.1 has 5, all else of 10.0 has 3. */
static const struct saxiko_route routes[] = {{0x0a000000, 3, 16}, {0x0a000180, 5, 25}};

static uint32_t in_words(const uint32_t *addrs) {
    struct words plain = {calloc(FIRSTS, 4), calloc(256, 4)};
    uint32_t sum = 0;
    if (plain.firsts && plain.seconds) {
        for (uint32_t k = 0; k < 256; k++) {
            plain.firsts[0x0a0000 | k] = IS_HIT | 3;
            plain.seconds[k] = k < 128 ? IS_HIT | 3 : IS_HIT | 5;
        }
        plain.firsts[0x0a0001] = IS_GROUP | 0;
        sum = by_words(&plain, addrs);
    }
    free(plain.firsts);
    free(plain.seconds);
    return sum;
}

static uint32_t in_table(const char *way, const uint32_t *addrs, uint32_t *hops) {
    static const struct saxiko_config config = {100, 2, 0, 32, 16};
    struct saxiko_table table = SAXIKO_CLOSED;
    size_t bad;
    uint32_t sum = 0;
    if (saxiko_table_load(&table, &config, routes, 2, &bad) != 0)
        return 0;
    if (strcmp(way, "handle") == 0) {
        sum = by_handle(&table, addrs);
    } else {
        by_table_bulk(&table, addrs, hops);
        sum = sum_of(hops);
    }
    saxiko_table_close(&table);
    return sum;
}

static uint32_t in_running_table(const uint32_t *addrs, uint32_t *hops) {
    static const struct saxiko_config config = {100, 2, 1, 32, 16};
    struct saxiko_writer writer = SAXIKO_CLOSED;
    struct saxiko_reader reader = SAXIKO_CLOSED;
    size_t bad;
    if (saxiko_writer_load(&writer, &config, routes, 2, &bad) != 0 || saxiko_reader_register(&writer, &reader, 0) != 0
        || saxiko_reader_online(&reader) != 0)
        return 0;
    by_reader_bulk(&reader, addrs, hops);
    saxiko_reader_close(&reader);
    saxiko_writer_close(&writer);
    return sum_of(hops);
}

int main(int count, char **words) {
    static uint32_t addrs[LOOKUPS], hops[LOOKUPS];
    for (uint32_t k = 0; k < LOOKUPS; k++)
        addrs[k] = 0x0a000000 + k * 7 % 1024;
    if (count != 2)
        return 1;
    if (strcmp(words[1], "words") == 0)
        printf("%u\n", in_words(addrs));
    else if (strcmp(words[1], "reader_bulk") == 0)
        printf("%u\n", in_running_table(addrs, hops));
    else
        printf("%u\n", in_table(words[1], addrs, hops));
    return 0;
}
