/* saxiko_rte_lpm.h: the calls of DPDK's rte_lpm, with its error values, over a table of one thread of saxiko.h. Include
 * it instead of rte_lpm.h.
 *
 * What differs from DPDK:
 * - There is no rte_lpm_find_existing, as names are not kept, and no rte_lpm_rcu_qsbr_add: saxiko_writer_open makes a
 *   table with readers.
 * - A prefix of depth 0 is a rule, the default route.
 * - Next hops have 24 bits, and a greater one is refused.
 * - `number_tbl8s` is 1 to 65536, and `max_rules` at most 16777216. Names and sockets are not kept.
 * - One thread has the table and makes all calls of it, so that a group (a tbl8) that is given up can be used again at
 *   once. DPDK lets many threads look up at once, and these calls don't: lookups on other threads, also beside changes,
 *   are those of saxiko_reader_lookup, where a group waits until no reader can hold it.
 * - rte_lpm_lookup_bulk stores a next hop with RTE_LPM_LOOKUP_SUCCESS, and no bits above that.
 * - Errors of rte_lpm_create are in errno. */
#ifndef SAXIKO_RTE_LPM_H
#define SAXIKO_RTE_LPM_H

#include "saxiko.h"

#include <emmintrin.h>
#include <stdlib.h>

#define RTE_LPM_MAX_DEPTH 32
#define RTE_LPM_LOOKUP_SUCCESS 0x01000000u

/* Four addresses, as DPDK's rte_vect.h has them. */
#ifndef _RTE_VECT_X86_H_
typedef __m128i xmm_t;
#endif

struct rte_lpm_config {
    uint32_t max_rules;
    uint32_t number_tbl8s;
    int flags; /* not used */
};

struct rte_lpm {
    struct saxiko_table table;
};

static inline void rte_lpm_free(struct rte_lpm *lpm) {
    if (lpm)
        saxiko_table_close(&lpm->table);
    free(lpm);
}

/* Null where a limit is out of its range, or memory is short; errno says which. */
static inline struct rte_lpm *rte_lpm_create(const char *name, int socket_id, const struct rte_lpm_config *config) {
    struct rte_lpm *lpm = (struct rte_lpm *)calloc(1, sizeof *lpm);
    struct saxiko_config limits = SAXIKO_DEFAULTS;
    int32_t status = -EINVAL;
    (void)name;
    (void)socket_id;
    if (lpm && config) {
        limits.rules = config->max_rules;
        limits.groups = config->number_tbl8s;
        status = saxiko_table_open(&lpm->table, &limits);
    }
    if (lpm && status == 0)
        return lpm;
    errno = lpm ? -status : ENOMEM;
    free(lpm);
    return NULL;
}

/* 0, or an error of saxiko_table_add. */
static inline int rte_lpm_add(struct rte_lpm *lpm, uint32_t ip, uint8_t depth, uint32_t next_hop) {
    int32_t status = saxiko_table_add(lpm ? &lpm->table : NULL, ip, depth, next_hop);
    return status < 0 ? status : 0;
}

/* 0, or an error of saxiko_table_delete, with -EINVAL where there is no such rule, as in DPDK. */
static inline int rte_lpm_delete(struct rte_lpm *lpm, uint32_t ip, uint8_t depth) {
    uint32_t hop;
    int32_t status = saxiko_table_delete(lpm ? &lpm->table : NULL, ip, depth, &hop);
    return status == -ENOENT ? -EINVAL : status;
}

static inline void rte_lpm_delete_all(struct rte_lpm *lpm) {
    size_t rules;
    saxiko_table_flush(lpm ? &lpm->table : NULL, &rules);
}

/* 1 where the rule is there, and its next hop is stored; 0 where it isn't; or -EINVAL. */
static inline int rte_lpm_is_rule_present(struct rte_lpm *lpm, uint32_t ip, uint8_t depth, uint32_t *next_hop) {
    int32_t status = saxiko_table_get(lpm ? &lpm->table : NULL, ip, depth, next_hop);
    return status == 0 ? 1 : status == -ENOENT ? 0 : status;
}

/* The handle of a table that is looked up: DPDK has it const there, and what it answers by doesn't change. */
static inline struct saxiko_table *rte_lpm_table(const struct rte_lpm *lpm) {
    return lpm ? &((struct rte_lpm *)lpm)->table : NULL;
}

/* 0, -ENOENT or -EINVAL. */
static inline int rte_lpm_lookup(const struct rte_lpm *lpm, uint32_t ip, uint32_t *next_hop) {
    return saxiko_table_lookup(rte_lpm_table(lpm), ip, next_hop);
}

/* Stores for each address its next hop with the bit RTE_LPM_LOOKUP_SUCCESS, or 0. */
static inline int rte_lpm_lookup_bulk(const struct rte_lpm *lpm, const uint32_t *ips, uint32_t *next_hops, unsigned n) {
    int32_t status = saxiko_table_lookup_bulk(rte_lpm_table(lpm), ips, n, next_hops, n, UINT32_MAX);
    for (unsigned k = 0; status == 0 && k < n; k++)
        next_hops[k] = next_hops[k] == UINT32_MAX ? 0 : next_hops[k] | RTE_LPM_LOOKUP_SUCCESS;
    return status;
}

/* Stores the next hops of the four addresses of a vector, and `defv` for one that no rule covers. */
static inline void rte_lpm_lookupx4(const struct rte_lpm *lpm, xmm_t ip, uint32_t hop[4], uint32_t defv) {
    uint32_t ips[4];
    _mm_storeu_si128((__m128i *)(void *)ips, ip);
    saxiko_table_lookup_bulk(rte_lpm_table(lpm), ips, 4, hop, 4, defv);
}

#endif
