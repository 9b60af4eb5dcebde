/* The calls with the names of rte_lpm, and what they return. */
#include "check.h"
#include "saxiko_rte_lpm.h"

static int64_t rte_found(const struct rte_lpm *lpm, uint32_t addr) {
    uint32_t hop = UNTOUCHED;
    int status = rte_lpm_lookup(lpm, addr, &hop);
    if (status != 0)
        CHECK(hop, UNTOUCHED);
    return status != 0 ? status : (int64_t)hop;
}

/* Limits that DPDK or this table doesn't take make no table. */
static void rte_lpm_limits(void) {
    static const struct rte_lpm_config bad[] = {{2, 0, 0}, {2, 65537, 0}, {0, 1, 0}, {16777217, 1, 0}};
    for (size_t k = 0; k < sizeof bad / sizeof *bad; k++) {
        errno = 0;
        CHECK(rte_lpm_create("table", 0, &bad[k]) == NULL, 1);
        CHECK(errno, EINVAL);
    }
    errno = 0;
    CHECK(rte_lpm_create("table", 0, NULL) == NULL, 1);
    CHECK(errno, EINVAL);
}

/* Many at once, and four, by a table that is const as in DPDK. */
static void rte_lpm_bulks(const struct rte_lpm *lpm) {
    uint32_t addrs[4] = {A(10, 1, 1, 200), A(10, 1, 1, 1), 0, A(9, 0, 0, 0)};
    uint32_t hops[5] = {7, 7, 7, 7, UNTOUCHED};
    xmm_t vector = _mm_loadu_si128((const __m128i *)(const void *)addrs);
    CHECK(rte_lpm_lookup_bulk(lpm, addrs, hops, 4), 0);
    CHECK(hops[0], RTE_LPM_LOOKUP_SUCCESS | 4);
    CHECK(hops[1], RTE_LPM_LOOKUP_SUCCESS | 5);
    CHECK(hops[2], 0);
    CHECK(hops[3], 0);
    CHECK(hops[4], UNTOUCHED);
    CHECK(rte_lpm_lookup_bulk(lpm, NULL, hops, 4), -EINVAL);
    CHECK(rte_lpm_lookup_bulk(lpm, addrs, NULL, 4), -EINVAL);
    CHECK(rte_lpm_lookup_bulk(NULL, addrs, hops, 4), -EINVAL);
    rte_lpm_lookupx4(NULL, vector, hops, 77);
    CHECK(hops[0], RTE_LPM_LOOKUP_SUCCESS | 4);
    CHECK(hops[3], 0);
    rte_lpm_lookupx4(lpm, vector, hops, 77);
    CHECK(hops[0], 4);
    CHECK(hops[1], 5);
    CHECK(hops[2], 77);
    CHECK(hops[3], 77);
    CHECK(hops[4], UNTOUCHED);
}

static void rte_lpm_calls(void) {
    struct rte_lpm_config config = {2, 1, 0};
    uint32_t hop = UNTOUCHED;
    struct rte_lpm *lpm = rte_lpm_create("table", 0, &config);
    CHECK(lpm != NULL, 1);
    rte_lpm_limits();
    CHECK(rte_lpm_add(lpm, A(10, 1, 1, 128), 25, 3), 0);
    CHECK(rte_lpm_add(lpm, A(10, 1, 1, 128), 25, 4), 0);
    CHECK(rte_lpm_add(lpm, A(10, 1, 2, 128), 25, 4), -ENOSPC);
    CHECK(rte_lpm_add(lpm, 0, 33, 4), -EINVAL);
    CHECK(rte_lpm_add(lpm, 0, 0, SAXIKO_HOP_MAX + 1), -EINVAL);
    CHECK(rte_lpm_add(NULL, 0, 1, 4), -EINVAL);
    CHECK(rte_lpm_add(lpm, A(10, 0, 0, 0), 8, 5), 0);
    CHECK(rte_lpm_add(lpm, A(11, 0, 0, 0), 8, 5), -ENOSPC);
    CHECK(rte_lpm_is_rule_present(lpm, A(10, 1, 1, 128), 25, &hop), 1);
    CHECK(hop, 4);
    CHECK(rte_lpm_is_rule_present(lpm, A(10, 1, 1, 128), 26, &hop), 0);
    CHECK(rte_lpm_is_rule_present(lpm, 0, 33, &hop), -EINVAL);
    CHECK(rte_lpm_is_rule_present(NULL, 0, 0, &hop), -EINVAL);
    CHECK(rte_lpm_is_rule_present(lpm, 0, 0, NULL), -EINVAL);
    CHECK(hop, 4);
    CHECK(rte_found(lpm, A(10, 1, 1, 129)), 4);
    CHECK(rte_found(lpm, A(11, 1, 1, 129)), -ENOENT);
    CHECK(rte_found(NULL, 0), -EINVAL);
    CHECK(rte_lpm_lookup(lpm, 0, NULL), -EINVAL);
    rte_lpm_bulks(lpm);
    CHECK(rte_lpm_delete(lpm, A(10, 0, 0, 0), 8), 0);
    CHECK(rte_lpm_delete(lpm, A(10, 0, 0, 0), 8), -EINVAL);
    CHECK(rte_lpm_delete(lpm, 0, 33), -EINVAL);
    CHECK(rte_lpm_delete(NULL, 0, 0), -EINVAL);
    rte_lpm_delete_all(lpm);
    rte_lpm_delete_all(NULL);
    CHECK(rte_found(lpm, A(10, 1, 1, 129)), -ENOENT);
    CHECK(rte_lpm_add(lpm, 0, 0, 6), 0);
    CHECK(rte_found(lpm, A(10, 1, 1, 129)), 6);
    rte_lpm_free(lpm);
    rte_lpm_free(NULL);
}
