/* The rule that answers an address, and adds that tell the replaced next hop, in both tables. */
#include "check.h"
#include "saxiko.h"

#include <errno.h>

static const struct saxiko_config rules_limits = {6, 1, 1, 32, 16};

/* The calls of whichever of the two there is. */
static int32_t lookup_rule(struct saxiko_table *table, struct saxiko_writer *writer, uint32_t addr,
                           struct saxiko_route *rule) {
    return table ? saxiko_table_lookup_rule(table, addr, rule) : saxiko_writer_lookup_rule(writer, addr, rule);
}

/* What an insert stores, or nothing, and its status. */
static void check_insert(int line, struct saxiko_table *table, struct saxiko_writer *writer,
                         const struct saxiko_route *route, int32_t wanted, uint32_t stored) {
    uint32_t old = UNTOUCHED;
    int32_t status = table ? saxiko_table_insert(table, route->addr, route->depth, route->hop, &old)
                           : saxiko_writer_insert(writer, route->addr, route->depth, route->hop, &old);
    check_equal("insert", line, status, wanted);
    check_equal("old", line, old, stored);
}

static void check_rule(int line, struct saxiko_table *table, struct saxiko_writer *writer, uint32_t asked, uint32_t addr,
                       uint8_t depth, uint32_t hop) {
    struct saxiko_route rule = {UNTOUCHED, UNTOUCHED, 77};
    check_equal("lookup_rule", line, lookup_rule(table, writer, asked, &rule), 0);
    check_equal("addr", line, rule.addr, addr);
    check_equal("depth", line, rule.depth, depth);
    check_equal("hop", line, rule.hop, hop);
}

static void inserts(struct saxiko_table *table, struct saxiko_writer *writer) {
    const struct saxiko_route whole = {A(10, 9, 9, 9), 1, 8}, other = {A(10, 0, 0, 0), SAXIKO_HOP_MAX, 8};
    const struct saxiko_route first = {A(10, 1, 1, 128), 3, 25}, last = {A(10, 1, 1, 200), 4, 32};
    const struct saxiko_route lacking = {A(10, 1, 2, 0), 5, 25}, all = {A(1, 2, 3, 4), 0, 0};
    const struct saxiko_route deep = {0, 1, 33}, high = {0, SAXIKO_HOP_MAX + 1, 0};
    check_insert(__LINE__, table, writer, &whole, SAXIKO_ADDED, UNTOUCHED);
    check_insert(__LINE__, table, writer, &whole, SAXIKO_UNCHANGED, 1);
    check_insert(__LINE__, table, writer, &other, SAXIKO_REPLACED, 1);
    check_insert(__LINE__, table, writer, &whole, SAXIKO_REPLACED, SAXIKO_HOP_MAX);
    check_insert(__LINE__, table, writer, &first, SAXIKO_ADDED, UNTOUCHED);
    check_insert(__LINE__, table, writer, &last, SAXIKO_ADDED, UNTOUCHED);
    check_insert(__LINE__, table, writer, &lacking, -ENOSPC, UNTOUCHED);
    check_insert(__LINE__, table, writer, &deep, -EINVAL, UNTOUCHED);
    check_insert(__LINE__, table, writer, &high, -EINVAL, UNTOUCHED);
    check_rule(__LINE__, table, writer, A(10, 255, 255, 255), A(10, 0, 0, 0), 8, 1);
    check_rule(__LINE__, table, writer, A(10, 1, 1, 127), A(10, 0, 0, 0), 8, 1);
    check_rule(__LINE__, table, writer, A(10, 1, 1, 201), A(10, 1, 1, 128), 25, 3);
    check_rule(__LINE__, table, writer, A(10, 1, 1, 200), A(10, 1, 1, 200), 32, 4);
    struct saxiko_route rule = {UNTOUCHED, UNTOUCHED, 77};
    CHECK(lookup_rule(table, writer, A(11, 0, 0, 0), &rule), -ENOENT);
    CHECK(rule.addr == UNTOUCHED && rule.hop == UNTOUCHED && rule.depth == 77, 1);
    check_insert(__LINE__, table, writer, &all, SAXIKO_ADDED, UNTOUCHED);
    check_insert(__LINE__, table, writer, &all, SAXIKO_UNCHANGED, 0);
    check_rule(__LINE__, table, writer, A(11, 0, 0, 0), 0, 0, 0);
}

/* A null pointer in each place, and each call on a closed handle. */
static void rules_missing(struct saxiko_table *open_table, struct saxiko_writer *open_writer) {
    struct saxiko_table table = SAXIKO_CLOSED;
    struct saxiko_writer writer = SAXIKO_CLOSED;
    struct saxiko_table *no_table[] = {NULL, &table};
    struct saxiko_writer *no_writer[] = {NULL, &writer};
    struct saxiko_route rule = {UNTOUCHED, UNTOUCHED, 77};
    uint32_t old = UNTOUCHED;
    for (int k = 0; k < 2; k++) {
        CHECK(saxiko_table_insert(no_table[k], 0, 0, 1, &old), -EINVAL);
        CHECK(saxiko_table_lookup_rule(no_table[k], 0, &rule), -EINVAL);
        CHECK(saxiko_writer_insert(no_writer[k], 0, 0, 1, &old), -EINVAL);
        CHECK(saxiko_writer_lookup_rule(no_writer[k], 0, &rule), -EINVAL);
    }
    CHECK(saxiko_table_insert(open_table, 0, 0, 1, NULL), -EINVAL);
    CHECK(saxiko_table_lookup_rule(open_table, 0, NULL), -EINVAL);
    CHECK(saxiko_writer_insert(open_writer, 0, 0, 1, NULL), -EINVAL);
    CHECK(saxiko_writer_lookup_rule(open_writer, 0, NULL), -EINVAL);
    CHECK(saxiko_table_lookup_rule(open_table, 0, &rule), -ENOENT);
    CHECK(saxiko_writer_lookup_rule(open_writer, 0, &rule), -ENOENT);
    CHECK(old, UNTOUCHED);
    CHECK(rule.addr == UNTOUCHED && rule.hop == UNTOUCHED && rule.depth == 77, 1);
}

/* A reader looks up lists of each length up to nine: whole fours, and what is left. */
static void reads(struct saxiko_writer *writer) {
    struct saxiko_reader reader = SAXIKO_CLOSED;
    const uint32_t addrs[9] = {A(10, 1, 1, 200), A(9, 0, 0, 0), A(10, 1, 1, 201), A(10, 0, 0, 0), A(10, 1, 1, 127),
                               A(10, 1, 1, 200), A(10, 1, 1, 255), A(10, 2, 0, 0), UINT32_MAX};
    const uint32_t wanted[9] = {4, 0, 3, 1, 1, 4, 3, 1, 0};
    CHECK(saxiko_reader_register(writer, &reader, 0), 0);
    CHECK(saxiko_reader_online(&reader), 0);
    for (size_t length = 0; length <= 9; length++) {
        uint32_t hops[10];
        for (int k = 0; k < 10; k++)
            hops[k] = UNTOUCHED;
        CHECK(saxiko_reader_lookup_bulk(&reader, addrs, length, hops, length, 7), 0);
        for (size_t k = 0; k < 10; k++)
            CHECK(hops[k], k < length ? wanted[k] : UNTOUCHED);
    }
    CHECK(saxiko_writer_flush(writer, &(size_t){0}), 0);
    for (size_t length = 0; length <= 9; length++) {
        uint32_t hops[9] = {0};
        CHECK(saxiko_reader_lookup_bulk(&reader, addrs, length, hops, length, 7), 0);
        for (size_t k = 0; k < length; k++)
            CHECK(hops[k], 7);
    }
    CHECK(saxiko_reader_unregister(writer, &reader), 0);
}

static void rules_calls(void) {
    struct saxiko_table table = SAXIKO_CLOSED;
    struct saxiko_writer writer = SAXIKO_CLOSED;
    CHECK(saxiko_table_open(&table, &rules_limits), 0);
    CHECK(saxiko_writer_open(&writer, &rules_limits), 0);
    rules_missing(&table, &writer);
    inserts(&table, NULL);
    inserts(NULL, &writer);
    reads(&writer);
    saxiko_table_close(&table);
    saxiko_writer_close(&writer);
}
