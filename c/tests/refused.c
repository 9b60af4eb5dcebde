/* Memory is refused, from each allocation of a call on in turn: a call that takes memory returns -ENOMEM then and leaves
 * all as it was, up to the first time that it has all it asks for. One that takes none is done without any.
 *
 * Linked with `-Wl,--wrap=rattle_alloc,--wrap=rattle_realloc`, so that the proved part asks here. */
#include "check.h"
#include "saxiko.h"

#include <errno.h>
#include <stdbool.h>

enum { MANY = 500, TRIES = 1000 };

struct answer {
    uint64_t is_done;
    void *at;
};

struct answer __real_rattle_alloc(size_t size, size_t align);
struct answer __real_rattle_realloc(void *at, size_t kept, size_t size, size_t align);
struct answer __wrap_rattle_alloc(size_t size, size_t align);
struct answer __wrap_rattle_realloc(void *at, size_t kept, size_t size, size_t align);

static const struct saxiko_config limits = {MANY, 2, 1, 32, 16};
static long granted = TRIES; /* how many allocations are still granted */
static char nothing[16];

static bool is_granted(void) { return granted == TRIES || granted-- > 0; }

struct answer __wrap_rattle_alloc(size_t size, size_t align) {
    struct answer refused = {0, nothing};
    return is_granted() ? __real_rattle_alloc(size, align) : refused;
}

struct answer __wrap_rattle_realloc(void *at, size_t kept, size_t size, size_t align) {
    struct answer refused = {0, nothing};
    return is_granted() ? __real_rattle_realloc(at, kept, size, align) : refused;
}

/* What the calls are made on: the handles, a list, and the place of the rule that is next. */
static struct saxiko_table table = SAXIKO_CLOSED;
static struct saxiko_writer writer = SAXIKO_CLOSED;
static struct saxiko_reader reader = SAXIKO_CLOSED;
static struct saxiko_route routes[MANY];
static uint32_t next;
static size_t bad = 77;
static uint32_t old = 77;

static int32_t open_table(void) { return saxiko_table_open(&table, &limits); }
static int32_t load_table(void) { return saxiko_table_load(&table, &limits, routes, MANY, &bad); }
static int32_t add_to_table(void) { return saxiko_table_add(&table, routes[next].addr, 24, next); }
static int32_t insert_in_table(void) { return saxiko_table_insert(&table, routes[next].addr, 24, next, &old); }
static int32_t open_writer(void) { return saxiko_writer_open(&writer, &limits); }
static int32_t load_writer(void) { return saxiko_writer_load(&writer, &limits, routes, MANY, &bad); }
static int32_t add_to_writer(void) { return saxiko_writer_add(&writer, routes[next].addr, 24, next); }
static int32_t insert_by_writer(void) { return saxiko_writer_insert(&writer, routes[next].addr, 24, next, &old); }
static int32_t register_reader(void) { return saxiko_reader_register(&writer, &reader, 0); }

/* How many rules there are, or the error. */
static int64_t rules_of_table(void) {
    struct saxiko_counts counts = {0, 0, 0, 0, 0, 0};
    int32_t status = saxiko_table_counts(&table, &counts);
    CHECK(counts.versions == 0 || counts.versions == counts.rules, 1);
    return status != 0 ? status : (int64_t)counts.rules;
}

static int64_t rules_of_writer(void) {
    struct saxiko_counts counts = {0, 0, 0, 0, 0, 0};
    int32_t status = saxiko_writer_counts(&writer, &counts);
    CHECK(counts.versions == 0 || counts.versions == counts.rules, 1);
    return status != 0 ? status : (int64_t)counts.rules;
}

/* What a reader that isn't registered answers. */
static int64_t report_of_reader(void) { return saxiko_reader_quiescent(&reader); }

/* Makes the call with more and more memory, until it is done. Returns how often it was refused; what `look` sees was the
 * same each time. */
static int refusals(int32_t (*call)(void), int64_t (*look)(void), int32_t wanted) {
    int64_t before = look();
    for (int tries = 0; tries < TRIES; tries++) {
        granted = tries;
        int32_t status = call();
        granted = TRIES;
        CHECK(status, status == -ENOMEM ? -ENOMEM : wanted);
        if (status != -ENOMEM)
            return tries;
        CHECK(look(), before);
        CHECK(bad, 77);
        CHECK(old, 77);
    }
    return TRIES;
}

/* Calls of a table that take no memory. */
static void without_memory(void) {
    uint32_t addrs[2] = {routes[0].addr, 0}, hops[2] = {0, 0}, hop = 0;
    struct saxiko_route rule = {0, 0, 0};
    size_t count = 0;
    granted = 0;
    CHECK(saxiko_table_lookup(&table, routes[9].addr, &hop), 0);
    CHECK(hop, 9);
    CHECK(saxiko_table_lookup_bulk(&table, addrs, 2, hops, 2, 7), 0);
    CHECK(hops[1], 7);
    CHECK(saxiko_table_get(&table, routes[9].addr, 24, &hop), 0);
    CHECK(saxiko_table_lookup_rule(&table, routes[9].addr + 9, &rule), 0);
    CHECK(rule.hop, 9);
    CHECK(saxiko_table_insert(&table, routes[9].addr, 24, 11, &hop), SAXIKO_REPLACED);
    CHECK(hop, 9);
    CHECK(saxiko_table_add(&table, routes[9].addr, 24, 10), SAXIKO_REPLACED);
    CHECK(saxiko_table_delete(&table, routes[9].addr, 24, &hop), 0);
    CHECK(hop, 10);
    CHECK(saxiko_table_flush(&table, &count), 0);
    CHECK(count, MANY - 1);
    CHECK(saxiko_table_reclaim(&table, 1, &count), 0);
    saxiko_table_close(&table);
    granted = TRIES;
}

static void running_without_memory(void) {
    uint32_t addrs[2] = {routes[0].addr, 0}, hops[2] = {0, 0}, hop = 0;
    struct saxiko_route rule = {0, 0, 0};
    size_t count = 0;
    granted = 0;
    CHECK(saxiko_reader_online(&reader), 0);
    CHECK(saxiko_reader_lookup(&reader, routes[9].addr, &hop), 0);
    CHECK(hop, 9);
    CHECK(saxiko_reader_lookup_bulk(&reader, addrs, 2, hops, 2, 7), 0);
    CHECK(hops[1], 7);
    CHECK(saxiko_reader_quiescent(&reader), 0);
    CHECK(saxiko_writer_get(&writer, routes[9].addr, 24, &hop), 0);
    CHECK(saxiko_writer_lookup_rule(&writer, routes[9].addr + 9, &rule), 0);
    CHECK(rule.hop, 9);
    CHECK(saxiko_writer_insert(&writer, routes[9].addr, 24, 11, &hop), SAXIKO_REPLACED);
    CHECK(hop, 9);
    CHECK(saxiko_writer_add(&writer, routes[9].addr, 24, 10), SAXIKO_REPLACED);
    CHECK(saxiko_writer_delete(&writer, routes[9].addr, 24, &hop), 0);
    CHECK(hop, 10);
    CHECK(saxiko_writer_flush(&writer, &count), 0);
    CHECK(count, MANY - 1);
    CHECK(saxiko_writer_reclaim(&writer, 1, &count, NULL), 0);
    CHECK(saxiko_reader_offline(&reader), 0);
    CHECK(saxiko_reader_unregister(&writer, &reader), 0);
    saxiko_writer_close(&writer);
    granted = TRIES;
}

/* A table is opened, and rules come one by one. */
static void one_by_one(int32_t (*open)(void), int32_t (*call)(void), int64_t (*look)(void)) {
    int refused = 0;
    CHECK(refusals(open, look, 0) > 0, 1);
    for (next = 0; next < MANY; next++)
        refused += refusals(call, look, SAXIKO_ADDED);
    CHECK(refused > 0, 1);
}

int main(void) {
    for (uint32_t k = 0; k < MANY; k++)
        routes[k] = (struct saxiko_route){.addr = 0x0a000000 + (k * 7919 % MANY) * 256, .hop = k, .depth = 24};
    CHECK(refusals(load_table, rules_of_table, 0) > 0, 1);
    CHECK(rules_of_table(), MANY);
    saxiko_table_close(&table);
    one_by_one(open_table, insert_in_table, rules_of_table);
    saxiko_table_close(&table);
    one_by_one(open_table, add_to_table, rules_of_table);
    without_memory();
    CHECK(refusals(load_writer, rules_of_writer, 0) > 0, 1);
    CHECK(rules_of_writer(), MANY);
    saxiko_writer_close(&writer);
    one_by_one(open_writer, insert_by_writer, rules_of_writer);
    saxiko_writer_close(&writer);
    one_by_one(open_writer, add_to_writer, rules_of_writer);
    CHECK(refusals(register_reader, report_of_reader, 0) > 0, 1);
    running_without_memory();
    return end_of_checks("refused");
}
