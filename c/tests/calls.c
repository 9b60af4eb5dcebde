/* Each call of saxiko.h with what it refuses. */
#define _DEFAULT_SOURCE
#include <sys/mman.h>

#include "calls_table.h"

#include "calls_rte_lpm.h"
#include "calls_rules.h"
#include "calls_running.h"
#include "calls_walk.h"

static void texts(void) {
    static const int32_t statuses[] = {0, 1, 2, -EPERM, -ENOENT, -E2BIG, -EAGAIN, -ENOMEM, -EBUSY, -EINVAL, -ENOSPC,
                                       -EDOM, -EOVERFLOW, -EALREADY};
    for (size_t k = 0; k < sizeof statuses / sizeof *statuses; k++)
        CHECK(strcmp(saxiko_strerror(statuses[k]), "unknown status") != 0, 1);
    CHECK(strcmp(saxiko_strerror(-9999), "unknown status"), 0);
    CHECK(strcmp(saxiko_strerror(INT32_MIN), "unknown status"), 0);
}

/* A list that is too long to be sorted opens neither table. No page of it is ever touched. */
static void too_many_routes(void) {
    const size_t length = ((size_t)1 << 26) + 1;
    struct saxiko_config config = SAXIKO_DEFAULTS;
    struct saxiko_table table = SAXIKO_CLOSED;
    struct saxiko_writer writer = SAXIKO_CLOSED;
    size_t bad = UNTOUCHED;
    struct saxiko_route *routes = mmap(NULL, length * sizeof *routes, PROT_READ,
                                       MAP_PRIVATE | MAP_ANONYMOUS | MAP_NORESERVE, -1, 0);
    CHECK(routes != MAP_FAILED, 1);
    CHECK(saxiko_table_load(&table, &config, routes, length, &bad), -E2BIG);
    CHECK(saxiko_writer_load(&writer, &config, routes, length, &bad), -E2BIG);
    CHECK(bad, UNTOUCHED);
    CHECK(table.is_open || writer.is_open, 0);
    munmap(routes, length * sizeof *routes);
}

/* Both tables open with a list of many routes: one for each block from 1.0.0.0 on. */
static void many_routes(void) {
    enum { MANY = 300000 };
    static struct saxiko_route routes[MANY];
    struct saxiko_config config = SAXIKO_DEFAULTS;
    struct saxiko_table table = SAXIKO_CLOSED;
    struct saxiko_writer writer = SAXIKO_CLOSED;
    uint32_t hop = 0;
    size_t bad;
    for (uint32_t k = 0; k < MANY; k++)
        routes[k] = (struct saxiko_route){.addr = 0x01000000 + k * 256, .hop = k, .depth = 24};
    CHECK(saxiko_table_load(&table, &config, routes, MANY, &bad), 0);
    CHECK(saxiko_table_lookup(&table, routes[MANY - 1].addr + 9, &hop), 0);
    CHECK(hop, MANY - 1);
    saxiko_table_close(&table);
    CHECK(saxiko_writer_load(&writer, &config, routes, MANY, &bad), 0);
    CHECK(saxiko_writer_get(&writer, routes[MANY - 1].addr, 24, &hop), 0);
    CHECK(hop, MANY - 1);
    saxiko_writer_close(&writer);
}

int main(void) {
    table_calls();
    running_calls();
    walk_calls();
    rules_calls();
    rte_lpm_calls();
    texts();
    many_routes();
    too_many_routes();
    return end_of_checks("calls");
}
