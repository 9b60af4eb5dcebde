/* A forwarder over libsaxiko: one thread forwards packets while another changes the routes.
 *
 *     forwarder ROUTES UPDATES ADDRESSES
 *
 * ROUTES has a prefix and a next hop a line, ADDRESSES an address a line, which stands for a packet, and UPDATES lines
 * `add PREFIX HOP` and `del PREFIX`. Other lines are skipped. It prints how many packets go to each next hop below 64,
 * before the updates and after them. */
#include <saxiko.h>

#include <pthread.h>
#include <stdatomic.h>
#include <stdio.h>
#include <stdlib.h>

enum { BURST = 32, HOPS = 64, PACKETS = 4096 };

struct traffic {
    struct saxiko_reader reader;
    uint32_t addrs[PACKETS];
    size_t count;
};

static atomic_int is_over;

static void stop_on(int32_t status, const char *what) {
    if (status < 0) {
        fprintf(stderr, "forwarder: %s: %s\n", what, saxiko_strerror(status));
        exit(1);
    }
}

static FILE *opened(const char *path) {
    FILE *file = fopen(path, "r");
    if (!file) {
        perror(path);
        exit(1);
    }
    return file;
}

static uint32_t address(const unsigned *part) { return part[0] << 24 | part[1] << 16 | part[2] << 8 | part[3]; }

/* Makes the changes of a file whose lines have these forms. */
static void change(struct saxiko_writer *writer, const char *path, const char *add, const char *del) {
    FILE *file = opened(path);
    char line[256];
    unsigned part[4], depth, hop;
    uint32_t old;
    while (fgets(line, sizeof line, file)) {
        if (sscanf(line, add, &part[0], &part[1], &part[2], &part[3], &depth, &hop) == 6)
            stop_on(saxiko_writer_add(writer, address(part), (uint8_t)depth, hop), line);
        else if (del && sscanf(line, del, &part[0], &part[1], &part[2], &part[3], &depth) == 5
                 && saxiko_writer_delete(writer, address(part), (uint8_t)depth, &old) < 0)
            printf("no rule: %s", line);
    }
    fclose(file);
}

static void read_packets(struct traffic *traffic, const char *path) {
    FILE *file = opened(path);
    char line[256];
    unsigned part[4];
    while (traffic->count < PACKETS && fgets(line, sizeof line, file))
        if (sscanf(line, "%u.%u.%u.%u", &part[0], &part[1], &part[2], &part[3]) == 4)
            traffic->addrs[traffic->count++] = address(part);
    fclose(file);
}

/* Forwards all packets once, in bursts, and counts those of each next hop; the last count is of all others. */
static void forward(struct traffic *traffic, size_t *sent) {
    uint32_t hops[BURST];
    for (size_t at = 0; at < traffic->count; at += BURST) {
        size_t length = traffic->count - at < BURST ? traffic->count - at : BURST;
        stop_on(saxiko_reader_lookup_bulk(&traffic->reader, traffic->addrs + at, length, hops, length, HOPS), "lookup");
        for (size_t k = 0; k < length; k++)
            sent[hops[k] < HOPS ? hops[k] : HOPS]++;
        stop_on(saxiko_reader_quiescent(&traffic->reader), "report");
    }
}

static void *forward_on(void *at) {
    size_t sent[HOPS + 1] = {0};
    while (!atomic_load(&is_over))
        forward(at, sent);
    return NULL;
}

static void report(struct traffic *traffic, const char *when) {
    size_t sent[HOPS + 1] = {0};
    forward(traffic, sent);
    for (int hop = 0; hop < HOPS; hop++)
        if (sent[hop])
            printf("%s: hop %d: %zu packets\n", when, hop, sent[hop]);
    printf("%s: other: %zu packets\n", when, sent[HOPS]);
}

int main(int count, char **words) {
    static struct traffic traffic;
    struct saxiko_config config = SAXIKO_DEFAULTS;
    struct saxiko_writer writer = SAXIKO_CLOSED;
    pthread_t thread;
    if (count != 4)
        return fprintf(stderr, "usage: forwarder ROUTES UPDATES ADDRESSES\n"), 2;
    stop_on(saxiko_writer_open(&writer, &config), "open");
    change(&writer, words[1], "%u.%u.%u.%u/%u %u", NULL);
    read_packets(&traffic, words[3]);
    stop_on(saxiko_reader_register(&writer, &traffic.reader, 0), "register");
    stop_on(saxiko_reader_online(&traffic.reader), "online");
    report(&traffic, "before");
    pthread_create(&thread, NULL, forward_on, &traffic);
    change(&writer, words[2], "add %u.%u.%u.%u/%u %u", "del %u.%u.%u.%u/%u");
    atomic_store(&is_over, 1);
    pthread_join(thread, NULL);
    report(&traffic, "after");
    stop_on(saxiko_reader_unregister(&writer, &traffic.reader), "unregister");
    saxiko_writer_close(&writer);
    return 0;
}
