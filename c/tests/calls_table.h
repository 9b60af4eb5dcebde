/* The calls of a table of one thread, each with what it refuses. */
#include "check.h"
#include "saxiko.h"

#include <errno.h>
#include <string.h>

#define A(a, b, c, d) ((uint32_t)(a) << 24 | (uint32_t)(b) << 16 | (uint32_t)(c) << 8 | (uint32_t)(d))
#define UNTOUCHED 0xa5a5a5a5u

static const struct saxiko_config small = {4, 2, 0, 32, 16};

/* Rules, groups in use, waiting and free, and versions are these. */
static void check_table(struct saxiko_table *table, int line, unsigned rules, unsigned in_use, unsigned waiting,
                        unsigned free, unsigned versions) {
    struct saxiko_counts counts = {0, 0, 0, 0, 0, 0};
    check_equal("counts", line, saxiko_table_counts(table, &counts), 0);
    check_equal("rules", line, (long long)counts.rules, rules);
    check_equal("groups_in_use", line, (long long)counts.groups_in_use, in_use);
    check_equal("groups_waiting", line, (long long)counts.groups_waiting, waiting);
    check_equal("groups_free", line, (long long)counts.groups_free, free);
    check_equal("versions", line, (long long)counts.versions, versions);
}

/* What a lookup stores, or its error. */
static int64_t found(struct saxiko_table *table, uint32_t addr) {
    uint32_t hop = UNTOUCHED;
    int32_t status = saxiko_table_lookup(table, addr, &hop);
    if (status != 0)
        CHECK(hop, UNTOUCHED);
    return status != 0 ? status : (int64_t)hop;
}

static int64_t held(struct saxiko_table *table, uint32_t addr, uint8_t depth) {
    uint32_t hop = UNTOUCHED;
    int32_t status = saxiko_table_get(table, addr, depth, &hop);
    if (status != 0)
        CHECK(hop, UNTOUCHED);
    return status != 0 ? status : (int64_t)hop;
}

static int64_t deleted(struct saxiko_table *table, uint32_t addr, uint8_t depth) {
    uint32_t hop = UNTOUCHED;
    int32_t status = saxiko_table_delete(table, addr, depth, &hop);
    if (status != 0)
        CHECK(hop, UNTOUCHED);
    return status != 0 ? status : (int64_t)hop;
}

static int64_t flushed(struct saxiko_table *table) {
    size_t rules = UNTOUCHED;
    int32_t status = saxiko_table_flush(table, &rules);
    if (status != 0)
        CHECK(rules, UNTOUCHED);
    return status != 0 ? status : (int64_t)rules;
}

static int64_t reclaimed(struct saxiko_table *table, size_t max) {
    size_t freed = UNTOUCHED;
    int32_t status = saxiko_table_reclaim(table, max, &freed);
    if (status != 0)
        CHECK(freed, UNTOUCHED);
    return status != 0 ? status : (int64_t)freed;
}

/* Each limit just out of its range, and the least and the greatest that are taken. */
static void limits(void) {
    static const struct saxiko_config bad[] = {
        {0, 2, 0, 32, 16}, {16777217, 2, 0, 32, 16}, {4, 0, 0, 32, 16}, {4, 65537, 0, 32, 16},
        {4, 2, 0, 65537, 16}, {4, 2, 0, 32, 0}, {4, 2, 0, 32, 65537},
    };
    static const struct saxiko_config good[] = {
        {1, 1, 0, 0, 1}, {16777216, 65536, UINT32_MAX, 65536, 65536}, SAXIKO_DEFAULTS,
    };
    struct saxiko_table table = SAXIKO_CLOSED;
    for (size_t k = 0; k < sizeof bad / sizeof *bad; k++) {
        CHECK(saxiko_table_open(&table, &bad[k]), -EINVAL);
        CHECK(found(&table, 0), -EINVAL);
    }
    for (size_t k = 0; k < sizeof good / sizeof *good; k++) {
        CHECK(saxiko_table_open(&table, &good[k]), 0);
        check_table(&table, __LINE__, 0, 0, 0, good[k].groups, 0);
        saxiko_table_close(&table);
    }
}

/* A null pointer in each place, and each call on a closed handle. */
static void missing(struct saxiko_table *open) {
    struct saxiko_table table = SAXIKO_CLOSED;
    struct saxiko_counts counts, untouched;
    uint32_t hop = UNTOUCHED, addrs[2] = {0, 1}, hops[2] = {UNTOUCHED, UNTOUCHED};
    size_t number = UNTOUCHED;
    memset(&counts, 0xa5, sizeof counts);
    untouched = counts;
    saxiko_table_close(NULL);
    saxiko_table_close(&table);
    CHECK(saxiko_table_open(NULL, &small), -EINVAL);
    CHECK(saxiko_table_open(&table, NULL), -EINVAL);
    struct saxiko_table *no_table[] = {NULL, &table};
    for (int k = 0; k < 2; k++) {
        CHECK(saxiko_table_add(no_table[k], 0, 0, 1), -EINVAL);
        CHECK(saxiko_table_delete(no_table[k], 0, 0, &hop), -EINVAL);
        CHECK(saxiko_table_flush(no_table[k], &number), -EINVAL);
        CHECK(saxiko_table_get(no_table[k], 0, 0, &hop), -EINVAL);
        CHECK(saxiko_table_lookup(no_table[k], 0, &hop), -EINVAL);
        CHECK(saxiko_table_lookup_bulk(no_table[k], addrs, 2, hops, 2, 7), -EINVAL);
        CHECK(saxiko_table_counts(no_table[k], &counts), -EINVAL);
        CHECK(saxiko_table_reclaim(no_table[k], 1, &number), -EINVAL);
    }
    CHECK(saxiko_table_delete(open, 0, 0, NULL), -EINVAL);
    CHECK(saxiko_table_flush(open, NULL), -EINVAL);
    CHECK(saxiko_table_get(open, 0, 0, NULL), -EINVAL);
    CHECK(saxiko_table_lookup(open, 0, NULL), -EINVAL);
    CHECK(saxiko_table_lookup_bulk(open, NULL, 2, hops, 2, 7), -EINVAL);
    CHECK(saxiko_table_lookup_bulk(open, addrs, 2, NULL, 2, 7), -EINVAL);
    CHECK(saxiko_table_lookup_bulk(open, addrs, 1, hops, 2, 7), -EINVAL);
    CHECK(saxiko_table_lookup_bulk(open, addrs, 2, hops, 1, 7), -EINVAL);
    CHECK(saxiko_table_lookup_bulk(open, NULL, 0, NULL, 0, 7), 0);
    CHECK(saxiko_table_counts(open, NULL), -EINVAL);
    CHECK(saxiko_table_reclaim(open, 1, NULL), -EINVAL);
    CHECK(hop, UNTOUCHED);
    CHECK(number, UNTOUCHED);
    CHECK(hops[0], UNTOUCHED);
    CHECK(hops[1], UNTOUCHED);
    CHECK(memcmp(&counts, &untouched, sizeof counts), 0);
    CHECK(table.is_open, 0);
}

/* Rules come, change and go; what is refused changes nothing. */
static void changes(struct saxiko_table *table) {
    CHECK(saxiko_table_open(table, &small), -EBUSY);
    CHECK(found(table, A(10, 1, 2, 3)), -ENOENT);
    CHECK(saxiko_table_add(table, A(10, 9, 9, 9), 8, 1), SAXIKO_ADDED);
    CHECK(saxiko_table_add(table, A(10, 0, 0, 0), 8, 1), SAXIKO_UNCHANGED);
    CHECK(saxiko_table_add(table, A(10, 0, 0, 0), 8, SAXIKO_HOP_MAX), SAXIKO_REPLACED);
    CHECK(found(table, A(10, 255, 255, 255)), SAXIKO_HOP_MAX);
    CHECK(found(table, A(11, 0, 0, 0)), -ENOENT);
    CHECK(saxiko_table_add(table, A(10, 1, 1, 128), 25, 3), SAXIKO_ADDED);
    CHECK(saxiko_table_add(table, A(10, 1, 1, 200), 32, 4), SAXIKO_ADDED);
    check_table(table, __LINE__, 3, 1, 0, 1, 4);
    CHECK(found(table, A(10, 1, 1, 127)), SAXIKO_HOP_MAX);
    CHECK(found(table, A(10, 1, 1, 128)), 3);
    CHECK(found(table, A(10, 1, 1, 200)), 4);
    CHECK(held(table, A(10, 0, 0, 0), 8), SAXIKO_HOP_MAX);
    CHECK(held(table, A(10, 0, 0, 0), 9), -ENOENT);
    CHECK(held(table, A(10, 1, 1, 200), 32), 4);
    CHECK(held(table, A(10, 1, 1, 200), 33), -EINVAL);
    CHECK(saxiko_table_add(table, 0, 33, 1), -EINVAL);
    CHECK(saxiko_table_add(table, 0, 255, 1), -EINVAL);
    CHECK(saxiko_table_add(table, 0, 0, SAXIKO_HOP_MAX + 1), -EINVAL);
    CHECK(deleted(table, 0, 33), -EINVAL);
    CHECK(deleted(table, A(10, 0, 0, 0), 9), -ENOENT);
    check_table(table, __LINE__, 3, 1, 0, 1, 4);
}

/* The table is full of rules, and then of groups. */
static void full(struct saxiko_table *table) {
    CHECK(saxiko_table_add(table, 0, 0, 0), SAXIKO_ADDED);
    CHECK(saxiko_table_add(table, A(9, 0, 0, 0), 8, 5), -ENOSPC);
    CHECK(saxiko_table_add(table, 0, 0, 9), SAXIKO_REPLACED);
    CHECK(found(table, A(9, 0, 0, 0)), 9);
    check_table(table, __LINE__, 4, 1, 0, 1, 6);
    CHECK(deleted(table, 0, 0), 9);
    CHECK(deleted(table, A(10, 0, 0, 0), 8), SAXIKO_HOP_MAX);
    CHECK(saxiko_table_add(table, A(10, 1, 2, 0), 26, 6), SAXIKO_ADDED);
    CHECK(saxiko_table_add(table, A(10, 1, 3, 0), 27, 7), -ENOSPC);
    check_table(table, __LINE__, 3, 2, 0, 0, 9);
    CHECK(deleted(table, A(10, 1, 2, 63), 26), 6);
    check_table(table, __LINE__, 2, 1, 1, 0, 10);
    CHECK(saxiko_table_add(table, A(10, 1, 3, 0), 27, 7), SAXIKO_ADDED);
    CHECK(found(table, A(10, 1, 3, 31)), 7);
    CHECK(found(table, A(10, 1, 2, 0)), -ENOENT);
    check_table(table, __LINE__, 3, 2, 0, 0, 11);
}

static void many(struct saxiko_table *table) {
    uint32_t addrs[5] = {A(10, 1, 1, 128), A(10, 1, 1, 200), A(10, 1, 3, 1), 0, UINT32_MAX};
    uint32_t hops[6] = {1, 1, 1, 1, 1, UNTOUCHED};
    CHECK(saxiko_table_lookup_bulk(table, addrs, 5, hops, 5, UINT32_MAX), 0);
    CHECK(hops[0], 3);
    CHECK(hops[1], 4);
    CHECK(hops[2], 7);
    CHECK(hops[3], UINT32_MAX);
    CHECK(hops[4], UINT32_MAX);
    CHECK(hops[5], UNTOUCHED);
}

/* A list of routes is loaded; a second one for a prefix counts. What is refused opens nothing, and a route that is none
 * is told before limits that are none. */
static void loads(void) {
    struct saxiko_route routes[4] = {{A(10, 1, 1, 200), 4, 32}, {0, 1, 0}, {A(10, 1, 1, 129), 3, 25}, {7, 2, 0}};
    struct saxiko_config config = small, bad_limits = small;
    struct saxiko_table table = SAXIKO_CLOSED;
    size_t bad = UNTOUCHED;
    bad_limits.groups = 0;
    CHECK(saxiko_table_load(&table, &config, routes, 4, &bad), 0);
    CHECK(bad, UNTOUCHED);
    check_table(&table, __LINE__, 3, 1, 0, 1, 0);
    CHECK(found(&table, A(10, 1, 1, 200)), 4);
    CHECK(found(&table, A(10, 1, 1, 128)), 3);
    CHECK(found(&table, A(10, 1, 1, 127)), 2);
    CHECK(saxiko_table_load(&table, &config, routes, 4, &bad), -EBUSY);
    CHECK(held(&table, 0, 0), 2);
    saxiko_table_close(&table);
    CHECK(saxiko_table_load(&table, &bad_limits, routes, 4, &bad), -EINVAL);
    config.rules = 2;
    CHECK(saxiko_table_load(&table, &config, routes, 4, &bad), -ENOSPC);
    config = small;
    config.groups = 1;
    routes[1].addr = A(10, 1, 2, 0);
    routes[1].depth = 26;
    CHECK(saxiko_table_load(&table, &config, routes, 4, &bad), -ENOSPC);
    CHECK(bad, UNTOUCHED);
    routes[3].hop = SAXIKO_HOP_MAX + 1;
    CHECK(saxiko_table_load(&table, &small, routes, 4, &bad), -EDOM);
    CHECK(bad, 3);
    routes[2].depth = 33;
    CHECK(saxiko_table_load(&table, &bad_limits, routes, 4, &bad), -EDOM);
    CHECK(bad, 2);
    bad = UNTOUCHED;
    CHECK(saxiko_table_load(NULL, &small, routes, 2, &bad), -EINVAL);
    CHECK(saxiko_table_load(&table, NULL, routes, 2, &bad), -EINVAL);
    CHECK(saxiko_table_load(&table, &small, NULL, 2, &bad), -EINVAL);
    CHECK(saxiko_table_load(&table, &small, routes, 2, NULL), -EINVAL);
    CHECK(bad, UNTOUCHED);
    CHECK(table.is_open, 0);
    CHECK(saxiko_table_load(&table, &small, NULL, 0, &bad), 0);
    check_table(&table, __LINE__, 0, 0, 0, 2, 0);
    saxiko_table_close(&table);
}

/* Many rules, so that lists grow. */
static void large(void) {
    static const struct saxiko_config config = {1u << 20, 4096, 0, 32, 16};
    struct saxiko_table table = SAXIKO_CLOSED;
    uint32_t sum = 0;
    CHECK(saxiko_table_open(&table, &config), 0);
    for (uint32_t k = 0; k < 4096; k++)
        sum += saxiko_table_add(&table, A(10, 0, 0, 0) + (k << 8), 25 + k % 8, k) == SAXIKO_ADDED;
    for (uint32_t k = 0; k < 60000; k++)
        sum += saxiko_table_add(&table, k << 16, 16 + k % 9, k) == SAXIKO_ADDED;
    check_table(&table, __LINE__, sum, 4096, 0, 0, sum);
    CHECK(sum > 60000, 1);
    CHECK(found(&table, A(10, 0, 255, 0)), 255);
    CHECK(flushed(&table), sum);
    CHECK(found(&table, A(10, 0, 255, 0)), -ENOENT);
    saxiko_table_close(&table);
}

static void table_calls(void) {
    struct saxiko_table table = SAXIKO_CLOSED;
    limits();
    loads();
    large();
    CHECK(saxiko_table_open(&table, &small), 0);
    missing(&table);
    check_table(&table, __LINE__, 0, 0, 0, 2, 0);
    changes(&table);
    full(&table);
    many(&table);
    CHECK(flushed(&table), 3);
    check_table(&table, __LINE__, 0, 0, 2, 0, 12);
    CHECK(flushed(&table), 0);
    CHECK(reclaimed(&table, 1), 1);
    check_table(&table, __LINE__, 0, 0, 1, 1, 12);
    CHECK(reclaimed(&table, SIZE_MAX), 1);
    CHECK(reclaimed(&table, 0), 0);
    check_table(&table, __LINE__, 0, 0, 0, 2, 12);
    saxiko_table_close(&table);
    saxiko_table_close(&table);
    CHECK(found(&table, 0), -EINVAL);
    CHECK(saxiko_table_open(&table, &small), 0);
    saxiko_table_close(&table);
}
