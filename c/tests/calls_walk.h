/* Walks over the rules of both tables, in the order of their prefixes. */
#include "check.h"
#include "saxiko.h"

#include <errno.h>

/* Rules in their order: of the least and the greatest depth, one in another, and many with one address. */
static const struct saxiko_route in_order[] = {
    {A(0, 0, 0, 0), 1, 0}, {A(0, 0, 0, 0), 2, 1}, {A(0, 0, 0, 0), 3, 24}, {A(0, 0, 0, 0), 4, 31},
    {A(0, 0, 0, 0), 5, 32}, {A(0, 0, 0, 1), 6, 32}, {A(9, 255, 255, 255), 7, 32}, {A(10, 0, 0, 0), 8, 8},
    {A(10, 0, 0, 0), 9, 9}, {A(10, 0, 0, 0), 10, 25}, {A(10, 0, 0, 128), 11, 25}, {A(10, 0, 0, 129), 12, 32},
    {A(10, 0, 1, 0), 13, 24}, {A(10, 1, 0, 0), 14, 16}, {A(128, 0, 0, 0), 15, 1}, {A(255, 255, 255, 255), 16, 32},
};
enum { IN_ORDER = sizeof in_order / sizeof *in_order };

/* The next rule of whichever of the two there is. */
static int32_t next_rule(struct saxiko_table *table, struct saxiko_writer *writer, const struct saxiko_route *after,
                         struct saxiko_route *rule) {
    return table ? saxiko_table_next_rule(table, after, rule) : saxiko_writer_next_rule(writer, after, rule);
}

static void check_route(int line, const struct saxiko_route *got, const struct saxiko_route *wanted) {
    check_equal("addr", line, got->addr, wanted->addr);
    check_equal("hop", line, got->hop, wanted->hop);
    check_equal("depth", line, got->depth, wanted->depth);
}

static void walk(struct saxiko_table *table, struct saxiko_writer *writer) {
    static const struct saxiko_route between = {A(10, 0, 0, 77), UNTOUCHED, 26}, bad = {0, 0, 33};
    struct saxiko_route route = {UNTOUCHED, UNTOUCHED, 7};
    int32_t status = next_rule(table, writer, NULL, &route);
    for (int k = 0; k < IN_ORDER; k++) {
        CHECK(status, 0);
        check_route(__LINE__, &route, &in_order[k]);
        status = next_rule(table, writer, &route, &route);
    }
    CHECK(status, -ENOENT);
    check_route(__LINE__, &route, &in_order[IN_ORDER - 1]);
    CHECK(next_rule(table, writer, &between, &route), 0);
    check_route(__LINE__, &route, &in_order[10]);
    CHECK(next_rule(table, writer, &bad, &route), -EINVAL);
    CHECK(next_rule(table, writer, &route, NULL), -EINVAL);
    CHECK(next_rule(table, writer, NULL, NULL), -EINVAL);
    check_route(__LINE__, &route, &in_order[10]);
}

/* A rule goes while a walk stands at it, one comes behind the walk, and one before it. */
static void walk_on(struct saxiko_table *table, struct saxiko_writer *writer) {
    static const struct saxiko_route added = {A(10, 0, 0, 192), 17, 26};
    struct saxiko_route route = in_order[11];
    uint32_t hop;
    CHECK(table ? saxiko_table_delete(table, route.addr, route.depth, &hop)
                : saxiko_writer_delete(writer, route.addr, route.depth, &hop), 0);
    CHECK(table ? saxiko_table_add(table, 1, 31, 9) : saxiko_writer_add(writer, 1, 31, 9), SAXIKO_REPLACED);
    CHECK(table ? saxiko_table_add(table, added.addr, added.depth, added.hop)
                : saxiko_writer_add(writer, added.addr, added.depth, added.hop), SAXIKO_ADDED);
    CHECK(next_rule(table, writer, &route, &route), 0);
    check_route(__LINE__, &route, &added);
    CHECK(next_rule(table, writer, &route, &route), 0);
    check_route(__LINE__, &route, &in_order[12]);
}

static void walk_calls(void) {
    struct saxiko_config config = SAXIKO_DEFAULTS;
    struct saxiko_table table = SAXIKO_CLOSED;
    struct saxiko_writer writer = SAXIKO_CLOSED;
    struct saxiko_route routes[IN_ORDER], route = {UNTOUCHED, UNTOUCHED, 7};
    size_t bad;
    for (int k = 0; k < IN_ORDER; k++)
        routes[k] = in_order[IN_ORDER - 1 - k];
    CHECK(saxiko_table_next_rule(&table, NULL, &route), -EINVAL);
    CHECK(saxiko_table_next_rule(NULL, &in_order[0], &route), -EINVAL);
    CHECK(saxiko_writer_next_rule(&writer, NULL, &route), -EINVAL);
    CHECK(saxiko_writer_next_rule(NULL, &in_order[0], &route), -EINVAL);
    CHECK(saxiko_table_load(&table, &config, routes, IN_ORDER, &bad), 0);
    CHECK(saxiko_writer_load(&writer, &config, routes, IN_ORDER, &bad), 0);
    CHECK(route.addr, UNTOUCHED);
    walk(&table, NULL);
    walk(NULL, &writer);
    walk_on(&table, NULL);
    walk_on(NULL, &writer);
    saxiko_table_close(&table);
    saxiko_writer_close(&writer);
    CHECK(saxiko_table_open(&table, &config), 0);
    CHECK(saxiko_table_next_rule(&table, NULL, &route), -ENOENT);
    saxiko_table_close(&table);
}
