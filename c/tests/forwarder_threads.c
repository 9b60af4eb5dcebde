/* Four threads over a running table: three look up bursts of packets and report after each, one changes routes.
 *
 * 10.0.0.0/8 has hop 1 throughout, and 10.0.B.128/25 has hop 100 + B now and then. So each answer is 1, or 100 + B where
 * the address lies in the upper half of block B; any other is wrong. */
#define _POSIX_C_SOURCE 200809L
#include "check.h"
#include "saxiko.h"

#include <errno.h>
#include <pthread.h>
#include <stdatomic.h>

enum { READERS = 3, BLOCKS = 64, BURST = 32, ROUNDS = 100 };

static const struct saxiko_config config = {1000, BLOCKS, READERS, 32, 16};
static pthread_barrier_t ready;
static atomic_int is_over;

struct lane {
    struct saxiko_reader reader;
    uint32_t seed;
    unsigned long looked_up, wrong;
};

static uint32_t base(uint32_t block) { return 0x0a000000u | block << 8; }

/* A burst of random packets in the blocks, whose answers are checked. */
static void burst(struct lane *lane) {
    uint32_t addrs[BURST], hops[BURST], hop;
    struct saxiko_span span;
    for (int k = 0; k < BURST; k++) {
        lane->seed = lane->seed * 1103515245u + 12345u;
        addrs[k] = base((lane->seed >> 8) % BLOCKS) | lane->seed >> 24;
    }
    if (saxiko_reader_lookup_bulk(&lane->reader, addrs, BURST, hops, BURST, 0) != 0)
        lane->wrong++;
    for (int k = 0; k < BURST; k++) {
        uint32_t block = addrs[k] >> 8 & 0xff;
        lane->wrong += !(hops[k] == 1 || ((addrs[k] & 0x80) != 0 && hops[k] == 100 + block));
    }
    if (saxiko_reader_lookup_span(&lane->reader, addrs[0], &hop, &span) != 0 || span.lo > span.hi)
        lane->wrong++;
    lane->looked_up += BURST;
}

static void *forward(void *at) {
    struct lane *lane = at;
    lane->wrong += saxiko_reader_online(&lane->reader) != 0;
    pthread_barrier_wait(&ready);
    do {
        burst(lane);
        lane->wrong += saxiko_reader_quiescent(&lane->reader) != 0;
    } while (!atomic_load(&is_over));
    lane->wrong += saxiko_reader_offline(&lane->reader) != 0;
    return NULL;
}

/* Puts the long route of each block in and takes it out again. One that lacks a group while readers hold those that
 * wait is left out. */
static void change(struct saxiko_writer *writer) {
    uint32_t hop;
    size_t freed;
    for (int round = 0; round < ROUNDS; round++) {
        for (uint32_t block = 0; block < BLOCKS; block++) {
            int32_t status = saxiko_writer_add(writer, base(block) | 0x80, 25, 100 + block);
            CHECK(status == SAXIKO_ADDED || status == -EBUSY, 1);
        }
        for (uint32_t block = 0; block < BLOCKS; block++) {
            int32_t status = saxiko_writer_delete(writer, base(block) | 0x80, 25, &hop);
            CHECK(status == -ENOENT || (status == 0 && hop == 100 + block), 1);
        }
        CHECK(saxiko_writer_reclaim(writer, BLOCKS, &freed, NULL) >= 0, 1);
    }
}

int main(void) {
    static struct lane lanes[READERS];
    pthread_t threads[READERS];
    struct saxiko_writer writer = SAXIKO_CLOSED;
    struct saxiko_counts counts;
    size_t freed;
    CHECK(saxiko_writer_open(&writer, &config), 0);
    CHECK(saxiko_writer_add(&writer, 0x0a000000, 8, 1), SAXIKO_ADDED);
    pthread_barrier_init(&ready, NULL, READERS + 1);
    for (uint32_t k = 0; k < READERS; k++) {
        lanes[k].seed = k + 1;
        CHECK(saxiko_reader_register(&writer, &lanes[k].reader, k), 0);
        CHECK(pthread_create(&threads[k], NULL, forward, &lanes[k]), 0);
    }
    pthread_barrier_wait(&ready);
    change(&writer);
    atomic_store(&is_over, 1);
    for (int k = 0; k < READERS; k++) {
        CHECK(pthread_join(threads[k], NULL), 0);
        CHECK(lanes[k].wrong, 0);
        CHECK(lanes[k].looked_up >= BURST, 1);
    }
    CHECK(saxiko_writer_reclaim(&writer, BLOCKS, &freed, NULL), 0);
    CHECK(saxiko_writer_counts(&writer, &counts), 0);
    CHECK(counts.rules, 1);
    CHECK(counts.groups_free, BLOCKS);
    for (int k = 0; k < READERS; k++)
        CHECK(saxiko_reader_unregister(&writer, &lanes[k].reader), 0);
    saxiko_writer_close(&writer);
    pthread_barrier_destroy(&ready);
    return end_of_checks("forwarder_threads");
}
