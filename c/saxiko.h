/* saxiko.h: the IPv4 longest-prefix-match table of software routers (DIR-24-8).
 *
 * Link with libsaxiko.a, which needs nothing but the C library: saxiko.pc names it for pkg-config.
 *
 * Addresses are in host byte order, as in rte_lpm: 10.1.2.3 is 0x0a010203. A rule is a prefix, which is an address with
 * a depth of 0 to 32 bits, and its next hop, a number from 0 to SAXIKO_HOP_MAX. The bits of the address past the depth
 * do not count.
 *
 * Handles are memory of the caller: a struct that is zero at first, as SAXIKO_CLOSED sets it. Opening a handle takes
 * memory of its own, which closing it frees; closing one that is closed does nothing. No field of a handle is read or
 * written but by these calls, and no handle is copied.
 *
 * What calls return: 0 or more where they are done, and else an error number of Linux, below 0. An error leaves all as
 * it was: the rules, the handles and what the pointers point to, unless the call says otherwise. A pointer that is null
 * or a handle that is closed is -EINVAL in every call. saxiko_strerror has a text for each status.
 *
 * Threads: one call at a time on a handle. A handle may go to another thread by the start or the join of a thread, by a
 * lock, or by a sequentially consistent atomic. Calls on different handles may run at once, also where both are of one
 * running table. A handle's thread is the one that has it: each call says on whose thread it is made. No call waits,
 * sleeps or takes a lock. None may be made from a signal handler, or in the child of a fork of a process with threads. */
#ifndef SAXIKO_H
#define SAXIKO_H

#include <errno.h>
#include <stdbool.h>
#include <stddef.h>
#include <stdint.h>

#ifdef __cplusplus
extern "C" {
#endif

#define SAXIKO_VERSION "2.0.0"

/* The greatest next hop, and the greatest depth of a prefix. */
#define SAXIKO_HOP_MAX 0xffffffu
#define SAXIKO_DEPTH_MAX 32

/* A handle that is closed. */
#define SAXIKO_CLOSED { NULL, false, 0 }

/* The limits of a table. A limit out of its range is -EINVAL. A group has the answers for one block of 256 addresses
 * that has a rule longer than 24 bits (a tbl8 of rte_lpm). */
struct saxiko_config {
    uint32_t rules;       /* the greatest number of rules: 1 to 16777216 */
    uint32_t groups;      /* the number of groups: 1 to 65536 */
    uint32_t readers;     /* the number of readers of a running table: 0 to 2048. A table of one thread has none */
    uint32_t threshold;   /* where more than so many groups wait, giving one more up reclaims first: 0 to 65536 */
    uint32_t reclaim_max; /* the most groups that such a reclaim frees: 1 to 65536 */
};

/* The limits that lpmtool has where no option gives another. */
#define SAXIKO_DEFAULTS { 1048576, 256, 1, 32, 16 }

/* What a table counts. Groups in use, waiting and free are all its groups together. */
struct saxiko_counts {
    uint64_t rules;
    uint64_t versions;       /* the changes that made a version of the rules */
    uint64_t token;          /* 1 at first, and for each group that was given up and each grace period one more */
    uint64_t groups_in_use;
    uint64_t groups_waiting; /* given up, and not free until no reader can hold them */
    uint64_t groups_free;
};

/* A route, of a list that is loaded or as a rule is told: a prefix and its next hop. */
struct saxiko_route {
    uint32_t addr;
    uint32_t hop;  /* at most SAXIKO_HOP_MAX */
    uint8_t depth; /* at most SAXIKO_DEPTH_MAX */
};

/* What an add returns where it is done. */
enum {
    SAXIKO_UNCHANGED = 0, /* the prefix had this very rule */
    SAXIKO_ADDED = 1,     /* the prefix had no rule */
    SAXIKO_REPLACED = 2   /* the prefix had a rule with another next hop */
};

/* The text of what a call returned, in English. It is never freed. From any thread. */
const char *saxiko_strerror(int32_t status);

/* ---- a table of one thread: it is changed and asked by the thread that has its handle */

struct saxiko_table {
    void *at;
    bool is_open;
    uint64_t number; /* not used: all handles have one form */
};

/* Opens a table without rules. Its memory is 64 MB for the first 24 bits, 1 KB for each group, and what the rules take.
 * `config->readers` doesn't count here.
 * -EINVAL: a limit is out of its range. -EBUSY: the handle is open. -ENOMEM. On any thread, which is the table's then. */
int32_t saxiko_table_open(struct saxiko_table *table, const struct saxiko_config *config);

/* Opens a table with the rules of these routes, in any order, at once and as version 0. Of routes of one prefix the last
 * counts. It is faster than an add for each.
 * -EBUSY: the handle is open. -E2BIG: more than 2^26 routes. -EDOM: a route has a greater depth or next hop than there is,
 * and `*bad` is then the place of the first such. -EINVAL: a limit is out of its range. -ENOSPC: the limits don't suffice
 * for the rules or their groups. Of several the first of these is returned. -ENOMEM. With a length of 0 `routes` may be
 * null. On any thread, which is the table's then. */
int32_t saxiko_table_load(struct saxiko_table *table, const struct saxiko_config *config,
                          const struct saxiko_route *routes, size_t routes_len, size_t *bad);

/* Frees the table, and closes the handle. On the table's thread. */
void saxiko_table_close(struct saxiko_table *table);

/* Adds a rule, or gives the prefix's rule another next hop. It returns SAXIKO_ADDED, SAXIKO_REPLACED or
 * SAXIKO_UNCHANGED. -EINVAL: a depth above 32, or a next hop above SAXIKO_HOP_MAX. -ENOSPC: there are as many rules as
 * `rules` allows, or no group is free. -ENOMEM. -EOVERFLOW: 2^61 versions were made, or fewer tokens of 2^62 are left
 * than there are groups. On the table's thread. */
int32_t saxiko_table_add(struct saxiko_table *table, uint32_t addr, uint8_t depth, uint32_t hop);

/* As add, and stores the next hop that the prefix had, where it had a rule; where it had none `*old` stays as it was. It
 * returns what add returns. On the table's thread. */
int32_t saxiko_table_insert(struct saxiko_table *table, uint32_t addr, uint8_t depth, uint32_t hop, uint32_t *old);

/* Deletes the rule of a prefix, and stores the next hop that it had.
 * -ENOENT: the prefix has no rule. -EINVAL: a depth above 32. -EOVERFLOW as in add. On the table's thread. */
int32_t saxiko_table_delete(struct saxiko_table *table, uint32_t addr, uint8_t depth, uint32_t *hop);

/* Deletes all rules as one version, and stores how many there were. -EOVERFLOW as in add. On the table's thread. */
int32_t saxiko_table_flush(struct saxiko_table *table, size_t *rules);

/* Stores the next hop of the rule of this very prefix. -ENOENT: it has none. -EINVAL: a depth above 32. On the table's
 * thread. */
int32_t saxiko_table_get(struct saxiko_table *table, uint32_t addr, uint8_t depth, uint32_t *hop);

/* Stores the rule that comes next after the prefix of `after`, or the first rule where `after` is null. Rules are in the
 * order of their addresses, and of one address the rule of the lower depth comes first. The prefix of `after` need not
 * have a rule, so that a walk goes on while rules come and go, and its hop doesn't count. `rule` may be `after`.
 * -ENOENT: no rule comes after it. -EINVAL: a depth above 32. On the table's thread. */
int32_t saxiko_table_next_rule(struct saxiko_table *table, const struct saxiko_route *after,
                               struct saxiko_route *rule);

/* Stores the next hop of the longest rule that covers the address. -ENOENT: no rule covers it.
 * It is inline, so that where a pointer is known not to be null that isn't tested. On the table's thread. */
int32_t saxiko_proved_table_lookup(struct saxiko_table *table, uint32_t addr, uint32_t *hop);
inline int32_t saxiko_table_lookup(struct saxiko_table *table, uint32_t addr, uint32_t *hop) {
    return table && hop ? saxiko_proved_table_lookup(table, addr, hop) : -EINVAL;
}

/* Stores the longest rule that covers the address: its prefix, with the bits past the depth 0, and its next hop. It
 * searches the rules of each depth, so it takes longer than lookup. -ENOENT: no rule covers the address. On the table's
 * thread. */
int32_t saxiko_table_lookup_rule(struct saxiko_table *table, uint32_t addr, struct saxiko_route *rule);

/* Stores for each address the next hop of the longest rule that covers it, and `absent`, which is any number, for one
 * that no rule covers. -EINVAL: `addrs_len` isn't `hops_len`. With lengths of 0 the pointers may be null. On the table's
 * thread. */
int32_t saxiko_table_lookup_bulk(struct saxiko_table *table, const uint32_t *addrs, size_t addrs_len,
                                 uint32_t *hops, size_t hops_len, uint32_t absent);

/* Counts rules, versions and groups. On the table's thread. */
int32_t saxiko_table_counts(struct saxiko_table *table, struct saxiko_counts *counts);

/* Frees at most `max` groups that wait, the oldest first, and stores how many. In a table of one thread nothing holds
 * a group, so that an add that lacks one takes the oldest that waits by itself. On the table's thread. */
int32_t saxiko_table_reclaim(struct saxiko_table *table, size_t max, size_t *freed);

/* ---- a running table: one thread changes it, and readers look up on their own threads meanwhile, with no lock
 *
 * A group that is given up isn't written again until no reader can hold it. Each reader says when it holds nothing that
 * it looked up before: it reports a quiescent state, as after each burst of packets, or goes offline before it waits for
 * anything. A reader that stays online without a report keeps groups from being free (rte_rcu_qsbr of DPDK). */

/* The writer: for one thread at a time, the one that changes the table. */
struct saxiko_writer {
    void *at;
    bool is_open;
    uint64_t number; /* which table */
};

/* A reader: for the thread that looks up. Two readers may be used at once, and beside the writer. */
struct saxiko_reader {
    void *at;
    bool is_open;
    uint64_t number; /* which table */
};

/* The reader that keeps the oldest group that waits from being free, or a grace period from being over, and the token
 * of its last report. */
struct saxiko_held {
    uint64_t reader;
    uint64_t counter;
};

/* The versions that answers of a reader lie between: `lo` changes were done when the call began, and `hi` were begun when
 * it ended. A version is the rules after so many changes since the table was opened, and `versions` of
 * saxiko_writer_counts is how many there were. Where `lo` is `hi` it is known which version answered. */
struct saxiko_span {
    uint64_t lo;
    uint64_t hi;
};

/* What a reclaim or a check returns, beside 0, where a reader holds the next group that waits, or may hold what was
 * given up before the grace period. */
#define SAXIKO_HELD 1

/* Opens a running table without rules, and its writer. Refused as saxiko_table_open. On any thread, which is the writer's
 * then. */
int32_t saxiko_writer_open(struct saxiko_writer *writer, const struct saxiko_config *config);

/* The same with the rules of these routes. Refused as saxiko_table_load. On any thread, which is the writer's then. */
int32_t saxiko_writer_load(struct saxiko_writer *writer, const struct saxiko_config *config,
                           const struct saxiko_route *routes, size_t routes_len, size_t *bad);

/* Frees the writer. Its readers go on: the table is freed with the last handle of it that is closed. On the writer's
 * thread. */
void saxiko_writer_close(struct saxiko_writer *writer);

/* As the calls of a table, while readers look up. -EBUSY of an add or insert: a group is lacking, and a reader holds the
 * oldest that waits, so that it can be tried again once that one has reported; -ENOSPC, where none waits. -EAGAIN: a grace
 * period lasts (saxiko_writer_start). On the writer's thread. */
int32_t saxiko_writer_add(struct saxiko_writer *writer, uint32_t addr, uint8_t depth, uint32_t hop);
int32_t saxiko_writer_insert(struct saxiko_writer *writer, uint32_t addr, uint8_t depth, uint32_t hop, uint32_t *old);
int32_t saxiko_writer_delete(struct saxiko_writer *writer, uint32_t addr, uint8_t depth, uint32_t *hop);
int32_t saxiko_writer_flush(struct saxiko_writer *writer, size_t *rules);
int32_t saxiko_writer_get(struct saxiko_writer *writer, uint32_t addr, uint8_t depth, uint32_t *hop);
int32_t saxiko_writer_next_rule(struct saxiko_writer *writer, const struct saxiko_route *after,
                                struct saxiko_route *rule);
int32_t saxiko_writer_lookup_rule(struct saxiko_writer *writer, uint32_t addr, struct saxiko_route *rule);
int32_t saxiko_writer_counts(struct saxiko_writer *writer, struct saxiko_counts *counts);

/* Frees at most `max` groups that wait, the oldest first, up to one that a reader holds, and stores how many. It returns
 * SAXIKO_HELD where a reader holds the next one, which `held` names then; `held` may be null. On the writer's thread. */
int32_t saxiko_writer_reclaim(struct saxiko_writer *writer, size_t max, size_t *freed, struct saxiko_held *held);

/* Starts a grace period, which is over once each reader has reported or was offline, as rte_rcu_qsbr_start. While it
 * lasts the table isn't changed: add, insert, delete, flush, reclaim, get, lookup_rule, next_rule and counts of the writer
 * are -EAGAIN. All calls of readers, and closing, are as ever. -EALREADY: a grace period lasts. -EOVERFLOW: fewer tokens
 * of 2^62 are left than there are groups. On the writer's thread. */
int32_t saxiko_writer_start(struct saxiko_writer *writer);

/* Checks once whether the grace period is over, as rte_rcu_qsbr_check does where it is not to wait. It is 0 where no
 * reader can hold what was given up before: the table can be changed again. It returns SAXIKO_HELD where a reader may,
 * which `held` names then; `held` may be null. -EPERM: no grace period lasts. On the writer's thread. */
int32_t saxiko_writer_check(struct saxiko_writer *writer, struct saxiko_held *held);

/* Opens a reader of this number, from 0 to `readers` - 1, which is offline. The writer's thread calls it, and may hand
 * the handle to another thread. -EINVAL: there is no such number. -EBUSY: the number has a reader, or the reader's handle
 * is open. -ENOMEM. */
int32_t saxiko_reader_register(struct saxiko_writer *writer, struct saxiko_reader *reader, uint32_t number);

/* Takes the reader offline, if it is online, and closes its handle; its number is free for another. The writer's thread
 * calls it, once the reader's thread no longer uses the handle. -EINVAL: the reader is one of another table. */
int32_t saxiko_reader_unregister(struct saxiko_writer *writer, struct saxiko_reader *reader);

/* Takes the reader offline, if it is online, and closes its handle, also without the writer. Its number stays in use. On
 * the reader's thread. */
void saxiko_reader_close(struct saxiko_reader *reader);

/* The reader is online: it may look up, and may hold groups. -EALREADY: it is. On the reader's thread. */
int32_t saxiko_reader_online(struct saxiko_reader *reader);

/* The reader is offline: it holds nothing. Before anything that may wait. -EPERM: it is. On the reader's thread. */
int32_t saxiko_reader_offline(struct saxiko_reader *reader);

/* The reader holds nothing that it looked up before. Once for each burst. -EPERM: the reader is offline. On the reader's
 * thread. */
int32_t saxiko_reader_quiescent(struct saxiko_reader *reader);

/* Stores the next hop of the longest rule that covers the address, in a version of the rules that stood during the call.
 * -ENOENT: no rule covered it. -EPERM: the reader is offline. On the reader's thread. */
int32_t saxiko_proved_reader_lookup(struct saxiko_reader *reader, uint32_t addr, uint32_t *hop);
inline int32_t saxiko_reader_lookup(struct saxiko_reader *reader, uint32_t addr, uint32_t *hop) {
    return reader && hop ? saxiko_proved_reader_lookup(reader, addr, hop) : -EINVAL;
}

/* As saxiko_table_lookup_bulk, where each address's answer is that of a version that stood during the call. Two answers
 * need not be of one version. -EINVAL: `addrs_len` isn't `hops_len`. -EPERM: the reader is offline. On the reader's
 * thread. */
int32_t saxiko_reader_lookup_bulk(struct saxiko_reader *reader, const uint32_t *addrs, size_t addrs_len,
                                  uint32_t *hops, size_t hops_len, uint32_t absent);

/* The same two, and they store between which versions the answer lies, or all answers of the list; lookup_span also where
 * it returns -ENOENT. The addresses of a list are looked up one by one; of an empty one `lo` is UINT64_MAX and `hi` is 0.
 * Each other refusal is as theirs, and stores nothing. On the reader's thread. */
int32_t saxiko_reader_lookup_span(struct saxiko_reader *reader, uint32_t addr, uint32_t *hop,
                                  struct saxiko_span *span);
int32_t saxiko_reader_lookup_bulk_span(struct saxiko_reader *reader, const uint32_t *addrs, size_t addrs_len,
                                       uint32_t *hops, size_t hops_len, uint32_t absent, struct saxiko_span *span);

#ifdef __cplusplus
}
#endif

#endif
