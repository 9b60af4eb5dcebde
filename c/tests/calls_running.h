/* The calls of a running table, each with what it refuses. One thread makes all of them here. */
#include "check.h"
#include "saxiko.h"

#include <errno.h>
#include <string.h>

static const struct saxiko_config running_limits = {4, 2, 2, 32, 16};

static void check_writer(struct saxiko_writer *writer, int line, unsigned rules, unsigned in_use, unsigned waiting,
                         unsigned free, unsigned versions) {
    struct saxiko_counts counts = {0, 0, 0, 0, 0, 0};
    check_equal("counts", line, saxiko_writer_counts(writer, &counts), 0);
    check_equal("rules", line, (long long)counts.rules, rules);
    check_equal("groups_in_use", line, (long long)counts.groups_in_use, in_use);
    check_equal("groups_waiting", line, (long long)counts.groups_waiting, waiting);
    check_equal("groups_free", line, (long long)counts.groups_free, free);
    check_equal("versions", line, (long long)counts.versions, versions);
}

static int64_t read_hop(struct saxiko_reader *reader, uint32_t addr) {
    uint32_t hop = UNTOUCHED;
    int32_t status = saxiko_reader_lookup(reader, addr, &hop);
    if (status != 0)
        CHECK(hop, UNTOUCHED);
    return status != 0 ? status : (int64_t)hop;
}

static int64_t writer_held(struct saxiko_writer *writer, uint32_t addr, uint8_t depth) {
    uint32_t hop = UNTOUCHED;
    int32_t status = saxiko_writer_get(writer, addr, depth, &hop);
    if (status != 0)
        CHECK(hop, UNTOUCHED);
    return status != 0 ? status : (int64_t)hop;
}

static int64_t writer_deleted(struct saxiko_writer *writer, uint32_t addr, uint8_t depth) {
    uint32_t hop = UNTOUCHED;
    int32_t status = saxiko_writer_delete(writer, addr, depth, &hop);
    if (status != 0)
        CHECK(hop, UNTOUCHED);
    return status != 0 ? status : (int64_t)hop;
}

/* A null pointer in each place, and each call on a closed handle. */
static void running_missing(struct saxiko_writer *open_writer, struct saxiko_reader *open_reader) {
    struct saxiko_writer writer = SAXIKO_CLOSED;
    struct saxiko_reader reader = SAXIKO_CLOSED;
    struct saxiko_writer *no_writer[] = {NULL, &writer};
    struct saxiko_reader *no_reader[] = {NULL, &reader};
    struct saxiko_counts counts, untouched;
    struct saxiko_held held = {UNTOUCHED, UNTOUCHED};
    struct saxiko_span span = {UNTOUCHED, UNTOUCHED};
    uint32_t hop = UNTOUCHED, addrs[2] = {0, 1}, hops[2] = {UNTOUCHED, UNTOUCHED};
    size_t number = UNTOUCHED;
    memset(&counts, 0xa5, sizeof counts);
    untouched = counts;
    saxiko_writer_close(NULL);
    saxiko_writer_close(&writer);
    saxiko_reader_close(NULL);
    saxiko_reader_close(&reader);
    CHECK(saxiko_writer_open(NULL, &running_limits), -EINVAL);
    CHECK(saxiko_writer_open(&writer, NULL), -EINVAL);
    for (int k = 0; k < 2; k++) {
        CHECK(saxiko_writer_add(no_writer[k], 0, 0, 1), -EINVAL);
        CHECK(saxiko_writer_delete(no_writer[k], 0, 0, &hop), -EINVAL);
        CHECK(saxiko_writer_flush(no_writer[k], &number), -EINVAL);
        CHECK(saxiko_writer_get(no_writer[k], 0, 0, &hop), -EINVAL);
        CHECK(saxiko_writer_counts(no_writer[k], &counts), -EINVAL);
        CHECK(saxiko_writer_reclaim(no_writer[k], 1, &number, &held), -EINVAL);
        CHECK(saxiko_writer_start(no_writer[k]), -EINVAL);
        CHECK(saxiko_writer_check(no_writer[k], &held), -EINVAL);
        CHECK(saxiko_reader_register(no_writer[k], &reader, 0), -EINVAL);
        CHECK(saxiko_reader_unregister(no_writer[k], open_reader), -EINVAL);
        CHECK(saxiko_reader_unregister(open_writer, no_reader[k]), -EINVAL);
        CHECK(saxiko_reader_online(no_reader[k]), -EINVAL);
        CHECK(saxiko_reader_offline(no_reader[k]), -EINVAL);
        CHECK(saxiko_reader_quiescent(no_reader[k]), -EINVAL);
        CHECK(saxiko_reader_lookup(no_reader[k], 0, &hop), -EINVAL);
        CHECK(saxiko_reader_lookup_bulk(no_reader[k], addrs, 2, hops, 2, 7), -EINVAL);
        CHECK(saxiko_reader_lookup_span(no_reader[k], 0, &hop, &span), -EINVAL);
        CHECK(saxiko_reader_lookup_bulk_span(no_reader[k], addrs, 2, hops, 2, 7, &span), -EINVAL);
    }
    CHECK(saxiko_reader_register(open_writer, NULL, 1), -EINVAL);
    CHECK(saxiko_writer_delete(open_writer, 0, 0, NULL), -EINVAL);
    CHECK(saxiko_writer_flush(open_writer, NULL), -EINVAL);
    CHECK(saxiko_writer_get(open_writer, 0, 0, NULL), -EINVAL);
    CHECK(saxiko_writer_counts(open_writer, NULL), -EINVAL);
    CHECK(saxiko_writer_reclaim(open_writer, 1, NULL, &held), -EINVAL);
    CHECK(saxiko_reader_lookup(open_reader, 0, NULL), -EINVAL);
    CHECK(saxiko_reader_lookup_bulk(open_reader, NULL, 2, hops, 2, 7), -EINVAL);
    CHECK(saxiko_reader_lookup_bulk(open_reader, addrs, 2, NULL, 2, 7), -EINVAL);
    CHECK(saxiko_reader_lookup_bulk(open_reader, addrs, 1, hops, 2, 7), -EINVAL);
    CHECK(saxiko_reader_lookup_bulk(open_reader, addrs, 2, hops, 1, 7), -EINVAL);
    CHECK(saxiko_reader_lookup_span(open_reader, 0, NULL, &span), -EINVAL);
    CHECK(saxiko_reader_lookup_span(open_reader, 0, &hop, NULL), -EINVAL);
    CHECK(saxiko_reader_lookup_bulk_span(open_reader, NULL, 2, hops, 2, 7, &span), -EINVAL);
    CHECK(saxiko_reader_lookup_bulk_span(open_reader, addrs, 2, NULL, 2, 7, &span), -EINVAL);
    CHECK(saxiko_reader_lookup_bulk_span(open_reader, addrs, 2, hops, 2, 7, NULL), -EINVAL);
    CHECK(saxiko_reader_lookup_bulk_span(open_reader, addrs, 1, hops, 2, 7, &span), -EINVAL);
    CHECK(saxiko_reader_lookup_bulk_span(open_reader, addrs, 2, hops, 1, 7, &span), -EINVAL);
    CHECK(hop, UNTOUCHED);
    CHECK(number, UNTOUCHED);
    CHECK(held.reader, UNTOUCHED);
    CHECK(held.counter, UNTOUCHED);
    CHECK(span.lo, UNTOUCHED);
    CHECK(span.hi, UNTOUCHED);
    CHECK(hops[0], UNTOUCHED);
    CHECK(hops[1], UNTOUCHED);
    CHECK(memcmp(&counts, &untouched, sizeof counts), 0);
    CHECK(writer.is_open || reader.is_open, 0);
}

/* An offline reader looks nothing up. */
static void offline_reads(struct saxiko_reader *reader) {
    uint32_t addrs[2] = {0, 1}, hops[2] = {UNTOUCHED, UNTOUCHED};
    struct saxiko_span span = {UNTOUCHED, UNTOUCHED};
    CHECK(read_hop(reader, 0), -EPERM);
    CHECK(saxiko_reader_lookup_bulk(reader, addrs, 2, hops, 2, 7), -EPERM);
    CHECK(saxiko_reader_lookup_span(reader, 0, hops, &span), -EPERM);
    CHECK(saxiko_reader_lookup_bulk_span(reader, addrs, 2, hops, 2, 7, &span), -EPERM);
    CHECK(span.lo, UNTOUCHED);
    CHECK(span.hi, UNTOUCHED);
    CHECK(hops[0], UNTOUCHED);
    CHECK(hops[1], UNTOUCHED);
    CHECK(saxiko_reader_quiescent(reader), -EPERM);
    CHECK(saxiko_reader_offline(reader), -EPERM);
}

/* Readers come, report and go. */
static void readers(struct saxiko_writer *writer, struct saxiko_reader *reader) {
    struct saxiko_reader other = SAXIKO_CLOSED;
    CHECK(saxiko_reader_register(writer, reader, 2), -EINVAL);
    CHECK(saxiko_reader_register(writer, reader, UINT32_MAX), -EINVAL);
    CHECK(saxiko_reader_register(writer, reader, 0), 0);
    CHECK(saxiko_reader_register(writer, reader, 1), -EBUSY);
    CHECK(saxiko_reader_register(writer, &other, 0), -EBUSY);
    CHECK(saxiko_reader_register(writer, &other, 1), 0);
    offline_reads(reader);
    CHECK(saxiko_reader_online(reader), 0);
    CHECK(saxiko_reader_online(reader), -EALREADY);
    CHECK(saxiko_reader_quiescent(reader), 0);
    CHECK(read_hop(reader, 0), -ENOENT);
    CHECK(saxiko_reader_online(&other), 0);
    CHECK(saxiko_reader_unregister(writer, &other), 0);
    CHECK(other.is_open, 0);
    CHECK(saxiko_reader_register(writer, &other, 1), 0);
    CHECK(saxiko_reader_offline(&other), -EPERM);
    saxiko_reader_close(&other);
    CHECK(saxiko_reader_register(writer, &other, 1), -EBUSY);
}

/* A reader of one table is no reader of another. */
static void foreign(struct saxiko_writer *writer, struct saxiko_reader *reader) {
    struct saxiko_writer another = SAXIKO_CLOSED;
    struct saxiko_reader its = SAXIKO_CLOSED;
    CHECK(saxiko_writer_open(&another, &running_limits), 0);
    CHECK(saxiko_reader_unregister(&another, reader), -EINVAL);
    CHECK(read_hop(reader, 0), -ENOENT);
    CHECK(saxiko_reader_register(&another, &its, 0), 0);
    CHECK(saxiko_reader_unregister(writer, &its), -EINVAL);
    saxiko_writer_close(&another);
    CHECK(saxiko_reader_unregister(&another, &its), -EINVAL);
    saxiko_reader_close(&its);
}

/* A group that is given up while a reader is online isn't free before it has reported. */
static void holding(struct saxiko_writer *writer, struct saxiko_reader *reader) {
    struct saxiko_held held = {UNTOUCHED, UNTOUCHED};
    size_t freed = UNTOUCHED;
    CHECK(saxiko_writer_add(writer, A(10, 1, 1, 128), 25, 3), SAXIKO_ADDED);
    CHECK(saxiko_writer_add(writer, A(10, 1, 2, 128), 25, 4), SAXIKO_ADDED);
    CHECK(read_hop(reader, A(10, 1, 2, 129)), 4);
    CHECK(writer_deleted(writer, A(10, 1, 2, 128), 25), 4);
    check_writer(writer, __LINE__, 1, 1, 1, 0, 3);
    CHECK(saxiko_writer_reclaim(writer, 2, &freed, &held), SAXIKO_HELD);
    CHECK(freed, 0);
    CHECK(held.reader, 0);
    CHECK(held.counter, 1);
    CHECK(saxiko_writer_add(writer, A(10, 1, 3, 0), 26, 5), -EBUSY);
    check_writer(writer, __LINE__, 1, 1, 1, 0, 3);
    CHECK(writer_held(writer, A(10, 1, 3, 0), 26), -ENOENT);
    CHECK(saxiko_writer_reclaim(writer, 2, &freed, NULL), SAXIKO_HELD);
    CHECK(saxiko_reader_quiescent(reader), 0);
    held.reader = UNTOUCHED;
    CHECK(saxiko_writer_reclaim(writer, 2, &freed, &held), 0);
    CHECK(freed, 1);
    CHECK(held.reader, UNTOUCHED);
    CHECK(saxiko_writer_add(writer, A(10, 1, 3, 0), 26, 5), SAXIKO_ADDED);
    CHECK(saxiko_writer_add(writer, A(10, 1, 4, 0), 27, 6), -ENOSPC);
    check_writer(writer, __LINE__, 2, 2, 0, 0, 4);
}

/* While a grace period lasts the writer changes and tells nothing; readers go on. */
static void waiting(struct saxiko_writer *writer, struct saxiko_reader *reader) {
    struct saxiko_held held = {UNTOUCHED, UNTOUCHED};
    struct saxiko_counts counts = {UNTOUCHED, 0, 0, 0, 0, 0};
    struct saxiko_route rule = {UNTOUCHED, UNTOUCHED, 77};
    size_t number = UNTOUCHED;
    uint32_t old = UNTOUCHED;
    CHECK(saxiko_writer_start(writer), -EALREADY);
    CHECK(saxiko_writer_open(writer, &running_limits), -EBUSY);
    CHECK(saxiko_writer_add(writer, 0, 0, 1), -EAGAIN);
    CHECK(saxiko_writer_insert(writer, 0, 0, 1, &old), -EAGAIN);
    CHECK(writer_deleted(writer, A(10, 1, 1, 128), 25), -EAGAIN);
    CHECK(saxiko_writer_flush(writer, &number), -EAGAIN);
    CHECK(saxiko_writer_reclaim(writer, 2, &number, &held), -EAGAIN);
    CHECK(writer_held(writer, A(10, 1, 1, 128), 25), -EAGAIN);
    CHECK(saxiko_writer_lookup_rule(writer, A(10, 1, 1, 128), &rule), -EAGAIN);
    CHECK(saxiko_writer_next_rule(writer, NULL, &rule), -EAGAIN);
    CHECK(saxiko_writer_next_rule(writer, &rule, &rule), -EAGAIN);
    CHECK(saxiko_writer_counts(writer, &counts), -EAGAIN);
    CHECK(old, UNTOUCHED);
    CHECK(rule.addr == UNTOUCHED && rule.hop == UNTOUCHED && rule.depth == 77, 1);
    CHECK(number, UNTOUCHED);
    CHECK(held.reader, UNTOUCHED);
    CHECK(counts.rules, UNTOUCHED);
    CHECK(read_hop(reader, A(10, 1, 1, 128)), 3);
}

/* A grace period is over once the reader that was online has reported, or is offline. */
static void grace_periods(struct saxiko_writer *writer, struct saxiko_reader *reader) {
    struct saxiko_held held = {UNTOUCHED, UNTOUCHED};
    struct saxiko_counts counts;
    CHECK(saxiko_writer_check(writer, &held), -EPERM);
    CHECK(held.reader, UNTOUCHED);
    CHECK(saxiko_writer_start(writer), 0);
    waiting(writer, reader);
    CHECK(saxiko_writer_check(writer, NULL), SAXIKO_HELD);
    CHECK(saxiko_writer_check(writer, &held), SAXIKO_HELD);
    CHECK(held.reader, 0);
    CHECK(held.counter, 2);
    CHECK(saxiko_reader_quiescent(reader), 0);
    held.reader = UNTOUCHED;
    CHECK(saxiko_writer_check(writer, &held), 0);
    CHECK(held.reader, UNTOUCHED);
    CHECK(saxiko_writer_check(writer, &held), -EPERM);
    CHECK(saxiko_writer_start(writer), 0);
    CHECK(saxiko_reader_offline(reader), 0);
    CHECK(saxiko_writer_check(writer, NULL), 0);
    CHECK(saxiko_reader_online(reader), 0);
    check_writer(writer, __LINE__, 2, 2, 0, 0, 4);
    CHECK(saxiko_writer_counts(writer, &counts), 0);
    CHECK(counts.token, 4);
}

/* Readers come and go while a grace period lasts, and a writer may be closed in one. */
static void readers_in_grace(void) {
    struct saxiko_writer writer = SAXIKO_CLOSED;
    struct saxiko_reader reader = SAXIKO_CLOSED;
    CHECK(saxiko_writer_open(&writer, &running_limits), 0);
    CHECK(saxiko_writer_start(&writer), 0);
    CHECK(saxiko_reader_register(&writer, &reader, 1), 0);
    CHECK(saxiko_reader_unregister(&writer, &reader), 0);
    CHECK(saxiko_writer_check(&writer, NULL), 0);
    CHECK(saxiko_reader_register(&writer, &reader, 1), 0);
    CHECK(saxiko_reader_online(&reader), 0);
    CHECK(saxiko_writer_start(&writer), 0);
    CHECK(saxiko_writer_check(&writer, NULL), SAXIKO_HELD);
    CHECK(saxiko_reader_unregister(&writer, &reader), 0);
    CHECK(saxiko_writer_check(&writer, NULL), 0);
    CHECK(saxiko_writer_start(&writer), 0);
    saxiko_writer_close(&writer);
    CHECK(saxiko_writer_check(&writer, NULL), -EINVAL);
}

/* At rest the versions of an answer are the version that the table has. */
static void spans(struct saxiko_writer *writer, struct saxiko_reader *reader) {
    uint32_t addrs[6] = {A(10, 1, 1, 128), 0, A(10, 1, 3, 1), 1, 2, A(10, 1, 1, 128)}, hops[6], hop = UNTOUCHED;
    struct saxiko_counts counts;
    struct saxiko_span span = {UNTOUCHED, UNTOUCHED};
    CHECK(saxiko_writer_counts(writer, &counts), 0);
    CHECK(saxiko_reader_lookup_span(reader, A(10, 1, 1, 128), &hop, &span), 0);
    CHECK(hop, 3);
    CHECK(span.lo, counts.versions);
    CHECK(span.hi, counts.versions);
    CHECK(saxiko_reader_lookup_bulk_span(reader, addrs, 6, hops, 6, 7, &span), 0);
    for (int k = 0; k < 6; k++) {
        uint32_t alone = 7;
        int32_t found = saxiko_reader_lookup(reader, addrs[k], &alone);
        CHECK(found == 0 || found == -ENOENT, 1);
        CHECK(hops[k], alone);
    }
    CHECK(span.lo, counts.versions);
    CHECK(span.hi, counts.versions);
    hops[0] = UNTOUCHED;
    CHECK(saxiko_reader_lookup_bulk_span(reader, addrs, 2, hops, 3, 7, &span), -EINVAL);
    CHECK(hops[0], UNTOUCHED);
    CHECK(span.lo, counts.versions);
    CHECK(span.hi, counts.versions);
    CHECK(saxiko_reader_lookup_bulk_span(reader, NULL, 0, NULL, 0, 7, &span), 0);
    CHECK(span.lo == UINT64_MAX && span.hi == 0, 1);
}

/* So are those of a miss. */
static void spans_of_misses(struct saxiko_writer *writer, struct saxiko_reader *reader) {
    uint32_t addrs[5] = {0, 1, 2, 3, UINT32_MAX}, hops[5], hop = UNTOUCHED;
    struct saxiko_counts counts;
    struct saxiko_span span = {UNTOUCHED, UNTOUCHED};
    CHECK(saxiko_writer_counts(writer, &counts), 0);
    CHECK(saxiko_reader_lookup_span(reader, 0, &hop, &span), -ENOENT);
    CHECK(hop, UNTOUCHED);
    CHECK(span.lo, counts.versions);
    CHECK(span.hi, counts.versions);
    span.lo = span.hi = UNTOUCHED;
    CHECK(saxiko_reader_lookup_bulk_span(reader, addrs, 5, hops, 5, 7, &span), 0);
    for (int k = 0; k < 5; k++)
        CHECK(hops[k], 7);
    CHECK(span.lo, counts.versions);
    CHECK(span.hi, counts.versions);
}

static void writer_changes(struct saxiko_writer *writer, struct saxiko_reader *reader) {
    uint32_t addrs[3] = {A(10, 1, 1, 128), 0, A(10, 1, 3, 1)}, hops[4] = {1, 1, 1, UNTOUCHED};
    size_t rules = UNTOUCHED;
    CHECK(saxiko_writer_open(writer, &running_limits), -EBUSY);
    CHECK(saxiko_writer_add(writer, 0, 0, 1), SAXIKO_ADDED);
    CHECK(saxiko_writer_add(writer, 0, 0, 1), SAXIKO_UNCHANGED);
    CHECK(saxiko_writer_add(writer, 0, 0, SAXIKO_HOP_MAX), SAXIKO_REPLACED);
    CHECK(saxiko_writer_add(writer, A(9, 0, 0, 0), 8, 7), SAXIKO_ADDED);
    CHECK(saxiko_writer_add(writer, A(8, 0, 0, 0), 8, 7), -ENOSPC);
    CHECK(saxiko_writer_add(writer, 0, 33, 1), -EINVAL);
    CHECK(saxiko_writer_add(writer, 0, 0, SAXIKO_HOP_MAX + 1), -EINVAL);
    CHECK(writer_deleted(writer, 0, 33), -EINVAL);
    CHECK(writer_deleted(writer, 0, 1), -ENOENT);
    CHECK(writer_held(writer, A(9, 1, 1, 1), 8), 7);
    CHECK(writer_held(writer, A(9, 1, 1, 1), 9), -ENOENT);
    CHECK(writer_held(writer, A(9, 1, 1, 1), 33), -EINVAL);
    CHECK(saxiko_reader_lookup_bulk(reader, addrs, 3, hops, 3, 0), 0);
    CHECK(hops[0], 3);
    CHECK(hops[1], SAXIKO_HOP_MAX);
    CHECK(hops[2], 5);
    CHECK(hops[3], UNTOUCHED);
    hops[0] = UNTOUCHED;
    CHECK(saxiko_reader_lookup_bulk(reader, addrs, 2, hops, 3, 0), -EINVAL);
    CHECK(hops[0], UNTOUCHED);
    CHECK(saxiko_reader_lookup_bulk(reader, NULL, 0, NULL, 0, 0), 0);
    spans(writer, reader);
    CHECK(saxiko_writer_flush(writer, &rules), 0);
    CHECK(rules, 4);
    CHECK(saxiko_writer_flush(writer, &rules), 0);
    CHECK(rules, 0);
    CHECK(read_hop(reader, A(9, 0, 0, 0)), -ENOENT);
    spans_of_misses(writer, reader);
    check_writer(writer, __LINE__, 0, 0, 2, 0, 8);
}

/* Limits out of range, and tables that are open at once. */
static void running_limits_checked(void) {
    static const struct saxiko_config bad[] = {
        {0, 2, 2, 32, 16}, {16777217, 2, 2, 32, 16}, {4, 0, 2, 32, 16}, {4, 65537, 2, 32, 16}, {4, 2, 2049, 32, 16},
        {4, 2, 2, 65537, 16}, {4, 2, 2, 32, 0}, {4, 2, 2, 32, 65537},
    };
    static const struct saxiko_config most = {16777216, 65536, 2048, 65536, 65536}, least = {1, 1, 0, 0, 1};
    struct saxiko_writer writer = SAXIKO_CLOSED;
    struct saxiko_reader reader = SAXIKO_CLOSED;
    for (size_t k = 0; k < sizeof bad / sizeof *bad; k++)
        CHECK(saxiko_writer_open(&writer, &bad[k]), -EINVAL);
    CHECK(saxiko_writer_open(&writer, &least), 0);
    CHECK(saxiko_reader_register(&writer, &reader, 0), -EINVAL);
    saxiko_writer_close(&writer);
    CHECK(saxiko_writer_open(&writer, &most), 0);
    CHECK(saxiko_reader_register(&writer, &reader, 2047), 0);
    saxiko_writer_close(&writer);
    saxiko_reader_close(&reader);
}

/* A list of routes is loaded, and readers answer by it. What is refused opens nothing, and a route that is none is told
 * before limits that are none. */
static void running_loads(void) {
    struct saxiko_route routes[4] = {{A(10, 1, 1, 200), 4, 32}, {0, 1, 0}, {A(10, 1, 1, 129), 3, 25}, {7, 2, 0}};
    struct saxiko_config config = running_limits, bad_limits = running_limits;
    struct saxiko_writer writer = SAXIKO_CLOSED, another = SAXIKO_CLOSED;
    struct saxiko_reader reader = SAXIKO_CLOSED;
    size_t bad = UNTOUCHED;
    bad_limits.readers = 2049;
    CHECK(saxiko_writer_load(&writer, &config, routes, 4, &bad), 0);
    check_writer(&writer, __LINE__, 3, 1, 0, 1, 0);
    CHECK(writer_held(&writer, 0, 0), 2);
    CHECK(saxiko_writer_load(&writer, &config, routes, 4, &bad), -EBUSY);
    CHECK(saxiko_reader_register(&writer, &reader, 1), 0);
    CHECK(saxiko_reader_online(&reader), 0);
    CHECK(read_hop(&reader, A(10, 1, 1, 200)), 4);
    CHECK(read_hop(&reader, A(10, 1, 1, 128)), 3);
    CHECK(read_hop(&reader, A(10, 1, 1, 127)), 2);
    CHECK(saxiko_writer_load(&another, &bad_limits, routes, 4, &bad), -EINVAL);
    config.rules = 2;
    CHECK(saxiko_writer_load(&another, &config, routes, 4, &bad), -ENOSPC);
    config = running_limits;
    config.groups = 1;
    routes[1].addr = A(10, 1, 2, 0);
    routes[1].depth = 26;
    CHECK(saxiko_writer_load(&another, &config, routes, 4, &bad), -ENOSPC);
    CHECK(saxiko_writer_load(NULL, &config, routes, 4, &bad), -EINVAL);
    CHECK(saxiko_writer_load(&another, NULL, routes, 4, &bad), -EINVAL);
    CHECK(saxiko_writer_load(&another, &config, NULL, 4, &bad), -EINVAL);
    CHECK(saxiko_writer_load(&another, &config, routes, 4, NULL), -EINVAL);
    CHECK(bad, UNTOUCHED);
    routes[2].depth = 33;
    CHECK(saxiko_writer_load(&another, &bad_limits, routes, 4, &bad), -EDOM);
    CHECK(bad, 2);
    CHECK(another.is_open, 0);
    CHECK(saxiko_writer_load(&another, &running_limits, NULL, 0, &bad), 0);
    check_writer(&another, __LINE__, 0, 0, 0, 2, 0);
    CHECK(saxiko_reader_unregister(&another, &reader), -EINVAL);
    CHECK(saxiko_reader_unregister(&writer, &reader), 0);
    saxiko_writer_close(&writer);
    saxiko_writer_close(&another);
}

static void running_calls(void) {
    struct saxiko_writer writer = SAXIKO_CLOSED;
    struct saxiko_reader reader = SAXIKO_CLOSED;
    running_limits_checked();
    running_loads();
    CHECK(saxiko_writer_open(&writer, &running_limits), 0);
    readers(&writer, &reader);
    running_missing(&writer, &reader);
    foreign(&writer, &reader);
    holding(&writer, &reader);
    grace_periods(&writer, &reader);
    readers_in_grace();
    writer_changes(&writer, &reader);
    /* The reader goes on without the writer. */
    CHECK(saxiko_writer_add(&writer, A(10, 0, 0, 0), 8, 1), SAXIKO_ADDED);
    saxiko_writer_close(&writer);
    saxiko_writer_close(&writer);
    CHECK(saxiko_reader_quiescent(&reader), 0);
    CHECK(read_hop(&reader, A(10, 1, 2, 3)), 1);
    saxiko_reader_close(&reader);
    CHECK(read_hop(&reader, A(10, 1, 2, 3)), -EINVAL);
}
