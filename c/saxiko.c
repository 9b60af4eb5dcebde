/* The calls of saxiko.h: each tests its pointers for null, and hands them on to the proved part, whose calls of the
 * same names with `proved` take no null. */
#include "saxiko.h"

#include <stdatomic.h>

/* The proved part has these numbers of Linux. */
_Static_assert(EPERM == 1 && ENOENT == 2 && E2BIG == 7 && EAGAIN == 11 && ENOMEM == 12 && EBUSY == 16,
               "error numbers");
_Static_assert(EINVAL == 22 && ENOSPC == 28 && EDOM == 33 && EOVERFLOW == 75 && EALREADY == 114, "error numbers");
/* It has these layouts. */
_Static_assert(sizeof(bool) == 1 && sizeof(size_t) == 8, "an x86-64 of Linux");

#define DECLARE(name, ...) int32_t saxiko_proved_##name(__VA_ARGS__)

DECLARE(table_open, struct saxiko_table *, const struct saxiko_config *);
DECLARE(table_load, struct saxiko_table *, const struct saxiko_config *, const struct saxiko_route *, size_t, size_t *);
void saxiko_proved_table_close(struct saxiko_table *);
DECLARE(table_add, struct saxiko_table *, uint32_t, uint8_t, uint32_t);
DECLARE(table_insert, struct saxiko_table *, uint32_t, uint8_t, uint32_t, uint32_t *);
DECLARE(table_delete, struct saxiko_table *, uint32_t, uint8_t, uint32_t *);
DECLARE(table_flush, struct saxiko_table *, size_t *);
DECLARE(table_get, struct saxiko_table *, uint32_t, uint8_t, uint32_t *);
DECLARE(table_first_rule, struct saxiko_table *, struct saxiko_route *);
DECLARE(table_next_rule, struct saxiko_table *, uint32_t, uint8_t, struct saxiko_route *);
DECLARE(table_lookup_rule, struct saxiko_table *, uint32_t, struct saxiko_route *);
DECLARE(table_lookup_bulk, struct saxiko_table *, const uint32_t *, size_t, uint32_t *, size_t, uint32_t);
DECLARE(table_counts, struct saxiko_table *, struct saxiko_counts *);
DECLARE(table_reclaim, struct saxiko_table *, size_t, size_t *);

DECLARE(writer_open, struct saxiko_writer *, const struct saxiko_config *);
DECLARE(writer_load, struct saxiko_writer *, const struct saxiko_config *, const struct saxiko_route *, size_t, size_t *);
void saxiko_proved_writer_close(struct saxiko_writer *);
DECLARE(writer_add, struct saxiko_writer *, uint32_t, uint8_t, uint32_t);
DECLARE(writer_insert, struct saxiko_writer *, uint32_t, uint8_t, uint32_t, uint32_t *);
DECLARE(writer_delete, struct saxiko_writer *, uint32_t, uint8_t, uint32_t *);
DECLARE(writer_flush, struct saxiko_writer *, size_t *);
DECLARE(writer_get, struct saxiko_writer *, uint32_t, uint8_t, uint32_t *);
DECLARE(writer_first_rule, struct saxiko_writer *, struct saxiko_route *);
DECLARE(writer_next_rule, struct saxiko_writer *, uint32_t, uint8_t, struct saxiko_route *);
DECLARE(writer_lookup_rule, struct saxiko_writer *, uint32_t, struct saxiko_route *);
DECLARE(writer_counts, struct saxiko_writer *, struct saxiko_counts *);
DECLARE(writer_reclaim, struct saxiko_writer *, size_t, size_t *, struct saxiko_held *);
DECLARE(writer_start, struct saxiko_writer *);
DECLARE(writer_check, struct saxiko_writer *, struct saxiko_held *);
DECLARE(reader_register, struct saxiko_writer *, struct saxiko_reader *, uint32_t);
DECLARE(reader_unregister, struct saxiko_writer *, struct saxiko_reader *);
void saxiko_proved_reader_close(struct saxiko_reader *);
DECLARE(reader_online, struct saxiko_reader *);
DECLARE(reader_offline, struct saxiko_reader *);
DECLARE(reader_quiescent, struct saxiko_reader *);
DECLARE(reader_lookup_bulk, struct saxiko_reader *, const uint32_t *, size_t, uint32_t *, size_t, uint32_t);
DECLARE(reader_lookup_span, struct saxiko_reader *, uint32_t, uint32_t *, struct saxiko_span *);
DECLARE(reader_lookup_bulk_span, struct saxiko_reader *, const uint32_t *, size_t, uint32_t *, size_t, uint32_t,
        struct saxiko_span *);

/* The number of the next table. The proved part has no such number: it asks that a reader is given back to the table
 * that it was registered at. */
static uint64_t next_number(void) {
    static atomic_uint_least64_t numbers;
    return atomic_fetch_add(&numbers, 1) + 1;
}

/* What stands for no addresses, hops or routes: a slice is never at null. */
static uint32_t none[1];
static const struct saxiko_route no_route;

static bool is_missing(const void *at, size_t length) { return at == NULL && length != 0; }

int32_t saxiko_table_open(struct saxiko_table *table, const struct saxiko_config *config) {
    return table && config ? saxiko_proved_table_open(table, config) : -EINVAL;
}

int32_t saxiko_table_load(struct saxiko_table *table, const struct saxiko_config *config,
                          const struct saxiko_route *routes, size_t routes_len, size_t *bad) {
    if (!table || !config || !bad || is_missing(routes, routes_len))
        return -EINVAL;
    return saxiko_proved_table_load(table, config, routes ? routes : &no_route, routes_len, bad);
}

void saxiko_table_close(struct saxiko_table *table) {
    if (table)
        saxiko_proved_table_close(table);
}

int32_t saxiko_table_add(struct saxiko_table *table, uint32_t addr, uint8_t depth, uint32_t hop) {
    return table ? saxiko_proved_table_add(table, addr, depth, hop) : -EINVAL;
}

int32_t saxiko_table_insert(struct saxiko_table *table, uint32_t addr, uint8_t depth, uint32_t hop, uint32_t *old) {
    return table && old ? saxiko_proved_table_insert(table, addr, depth, hop, old) : -EINVAL;
}

int32_t saxiko_table_delete(struct saxiko_table *table, uint32_t addr, uint8_t depth, uint32_t *hop) {
    return table && hop ? saxiko_proved_table_delete(table, addr, depth, hop) : -EINVAL;
}

int32_t saxiko_table_flush(struct saxiko_table *table, size_t *rules) {
    return table && rules ? saxiko_proved_table_flush(table, rules) : -EINVAL;
}

int32_t saxiko_table_get(struct saxiko_table *table, uint32_t addr, uint8_t depth, uint32_t *hop) {
    return table && hop ? saxiko_proved_table_get(table, addr, depth, hop) : -EINVAL;
}

int32_t saxiko_table_next_rule(struct saxiko_table *table, const struct saxiko_route *after,
                               struct saxiko_route *rule) {
    if (!table || !rule)
        return -EINVAL;
    return after ? saxiko_proved_table_next_rule(table, after->addr, after->depth, rule)
                 : saxiko_proved_table_first_rule(table, rule);
}

int32_t saxiko_table_lookup_rule(struct saxiko_table *table, uint32_t addr, struct saxiko_route *rule) {
    return table && rule ? saxiko_proved_table_lookup_rule(table, addr, rule) : -EINVAL;
}

extern inline int32_t saxiko_table_lookup(struct saxiko_table *table, uint32_t addr, uint32_t *hop);

int32_t saxiko_table_lookup_bulk(struct saxiko_table *table, const uint32_t *addrs, size_t addrs_len,
                                 uint32_t *hops, size_t hops_len, uint32_t absent) {
    if (!table || is_missing(addrs, addrs_len) || is_missing(hops, hops_len))
        return -EINVAL;
    return saxiko_proved_table_lookup_bulk(table, addrs ? addrs : none, addrs_len, hops ? hops : none, hops_len, absent);
}

int32_t saxiko_table_counts(struct saxiko_table *table, struct saxiko_counts *counts) {
    return table && counts ? saxiko_proved_table_counts(table, counts) : -EINVAL;
}

int32_t saxiko_table_reclaim(struct saxiko_table *table, size_t max, size_t *freed) {
    return table && freed ? saxiko_proved_table_reclaim(table, max, freed) : -EINVAL;
}

int32_t saxiko_writer_open(struct saxiko_writer *writer, const struct saxiko_config *config) {
    int32_t status = writer && config ? saxiko_proved_writer_open(writer, config) : -EINVAL;
    if (status == 0)
        writer->number = next_number();
    return status;
}

int32_t saxiko_writer_load(struct saxiko_writer *writer, const struct saxiko_config *config,
                           const struct saxiko_route *routes, size_t routes_len, size_t *bad) {
    if (!writer || !config || !bad || is_missing(routes, routes_len))
        return -EINVAL;
    int32_t status = saxiko_proved_writer_load(writer, config, routes ? routes : &no_route, routes_len, bad);
    if (status == 0)
        writer->number = next_number();
    return status;
}

void saxiko_writer_close(struct saxiko_writer *writer) {
    if (writer)
        saxiko_proved_writer_close(writer);
}

int32_t saxiko_writer_add(struct saxiko_writer *writer, uint32_t addr, uint8_t depth, uint32_t hop) {
    return writer ? saxiko_proved_writer_add(writer, addr, depth, hop) : -EINVAL;
}

int32_t saxiko_writer_insert(struct saxiko_writer *writer, uint32_t addr, uint8_t depth, uint32_t hop, uint32_t *old) {
    return writer && old ? saxiko_proved_writer_insert(writer, addr, depth, hop, old) : -EINVAL;
}

int32_t saxiko_writer_delete(struct saxiko_writer *writer, uint32_t addr, uint8_t depth, uint32_t *hop) {
    return writer && hop ? saxiko_proved_writer_delete(writer, addr, depth, hop) : -EINVAL;
}

int32_t saxiko_writer_flush(struct saxiko_writer *writer, size_t *rules) {
    return writer && rules ? saxiko_proved_writer_flush(writer, rules) : -EINVAL;
}

int32_t saxiko_writer_get(struct saxiko_writer *writer, uint32_t addr, uint8_t depth, uint32_t *hop) {
    return writer && hop ? saxiko_proved_writer_get(writer, addr, depth, hop) : -EINVAL;
}

int32_t saxiko_writer_next_rule(struct saxiko_writer *writer, const struct saxiko_route *after,
                                struct saxiko_route *rule) {
    if (!writer || !rule)
        return -EINVAL;
    return after ? saxiko_proved_writer_next_rule(writer, after->addr, after->depth, rule)
                 : saxiko_proved_writer_first_rule(writer, rule);
}

int32_t saxiko_writer_lookup_rule(struct saxiko_writer *writer, uint32_t addr, struct saxiko_route *rule) {
    return writer && rule ? saxiko_proved_writer_lookup_rule(writer, addr, rule) : -EINVAL;
}

int32_t saxiko_writer_counts(struct saxiko_writer *writer, struct saxiko_counts *counts) {
    return writer && counts ? saxiko_proved_writer_counts(writer, counts) : -EINVAL;
}

int32_t saxiko_writer_reclaim(struct saxiko_writer *writer, size_t max, size_t *freed, struct saxiko_held *held) {
    struct saxiko_held unasked;
    return writer && freed ? saxiko_proved_writer_reclaim(writer, max, freed, held ? held : &unasked) : -EINVAL;
}

int32_t saxiko_writer_start(struct saxiko_writer *writer) {
    return writer ? saxiko_proved_writer_start(writer) : -EINVAL;
}

int32_t saxiko_writer_check(struct saxiko_writer *writer, struct saxiko_held *held) {
    struct saxiko_held unasked;
    return writer ? saxiko_proved_writer_check(writer, held ? held : &unasked) : -EINVAL;
}

int32_t saxiko_reader_register(struct saxiko_writer *writer, struct saxiko_reader *reader, uint32_t number) {
    int32_t status = writer && reader ? saxiko_proved_reader_register(writer, reader, number) : -EINVAL;
    if (status == 0)
        reader->number = writer->number;
    return status;
}

int32_t saxiko_reader_unregister(struct saxiko_writer *writer, struct saxiko_reader *reader) {
    if (!writer || !reader || (writer->is_open && reader->is_open && writer->number != reader->number))
        return -EINVAL;
    return saxiko_proved_reader_unregister(writer, reader);
}

void saxiko_reader_close(struct saxiko_reader *reader) {
    if (reader)
        saxiko_proved_reader_close(reader);
}

int32_t saxiko_reader_online(struct saxiko_reader *reader) {
    return reader ? saxiko_proved_reader_online(reader) : -EINVAL;
}

int32_t saxiko_reader_offline(struct saxiko_reader *reader) {
    return reader ? saxiko_proved_reader_offline(reader) : -EINVAL;
}

int32_t saxiko_reader_quiescent(struct saxiko_reader *reader) {
    return reader ? saxiko_proved_reader_quiescent(reader) : -EINVAL;
}

extern inline int32_t saxiko_reader_lookup(struct saxiko_reader *reader, uint32_t addr, uint32_t *hop);

int32_t saxiko_reader_lookup_bulk(struct saxiko_reader *reader, const uint32_t *addrs, size_t addrs_len,
                                  uint32_t *hops, size_t hops_len, uint32_t absent) {
    if (!reader || is_missing(addrs, addrs_len) || is_missing(hops, hops_len))
        return -EINVAL;
    return saxiko_proved_reader_lookup_bulk(reader, addrs ? addrs : none, addrs_len, hops ? hops : none, hops_len, absent);
}

int32_t saxiko_reader_lookup_span(struct saxiko_reader *reader, uint32_t addr, uint32_t *hop,
                                  struct saxiko_span *span) {
    return reader && hop && span ? saxiko_proved_reader_lookup_span(reader, addr, hop, span) : -EINVAL;
}

int32_t saxiko_reader_lookup_bulk_span(struct saxiko_reader *reader, const uint32_t *addrs, size_t addrs_len,
                                       uint32_t *hops, size_t hops_len, uint32_t absent, struct saxiko_span *span) {
    if (!reader || !span || is_missing(addrs, addrs_len) || is_missing(hops, hops_len))
        return -EINVAL;
    return saxiko_proved_reader_lookup_bulk_span(reader, addrs ? addrs : none, addrs_len, hops ? hops : none, hops_len,
                                                 absent, span);
}
