/* The heap of c/heap.c: small and large blocks, what becomes of them, and what is asked of madvise, which is one of the
 * test's own here. */
#define _DEFAULT_SOURCE
#include "check.h"

#include <stdbool.h>
#include <stdint.h>
#include <string.h>
#include <sys/mman.h>
#include <sys/syscall.h>
#include <unistd.h>

enum { HUGE_PAGE = 1 << 21, MOST = 1 << 24 };

struct answer {
    uint64_t is_done;
    void *at;
};

struct answer rattle_alloc(size_t size, size_t align);
struct answer rattle_realloc(void *at, size_t kept, size_t size, size_t align);
void rattle_dealloc(void *at);

/* What the sanitizers are told: an allocation that is too large is refused, and ends no program. */
const char *__asan_default_options(void);
const char *__asan_default_options(void) { return "allocator_may_return_null=1"; }

static unsigned char bytes[MOST]; /* what blocks are filled with */
static bool is_refused;
static int asked;
static void *asked_at;
static size_t asked_size;

/* In place of the C library's: takes note of what is asked for, and refuses it where it is told to. */
int madvise(void *at, size_t size, int advice) {
    CHECK(advice, MADV_HUGEPAGE);
    asked++;
    asked_at = at;
    asked_size = size;
    return is_refused ? -1 : (int)syscall(SYS_madvise, at, size, advice);
}

static size_t least(size_t a, size_t b) { return a < b ? a : b; }

/* The alignment that is owed: the greatest power of two up to 16 that divides the size. */
static size_t owed(size_t size) { return size % 16 == 0 ? 16 : size & -size; }

/* A new block can be written, is aligned, and asks for huge pages where it has the size of one. */
static void *new_block(size_t size) {
    int before = asked;
    struct answer answer = rattle_alloc(size, 8);
    CHECK(answer.is_done, 1);
    CHECK((uintptr_t)answer.at % owed(size != 0 ? size : 8), 0);
    CHECK(asked - before, size >= HUGE_PAGE);
    if (size >= HUGE_PAGE) {
        CHECK((uintptr_t)answer.at % HUGE_PAGE, 0);
        CHECK(asked_at == answer.at && asked_size == size, 1);
    }
    memcpy(answer.at, bytes, size);
    return answer.at;
}

/* A block that becomes one of another size has its bytes, as far as they are kept. */
static void resize(size_t from, size_t to, size_t kept) {
    int before = asked;
    void *at = new_block(from);
    struct answer answer = rattle_realloc(at, kept, to, 8);
    CHECK(answer.is_done, 1);
    CHECK((uintptr_t)answer.at % owed(to != 0 ? to : 8), 0);
    CHECK(asked - before, (from >= HUGE_PAGE) + (to >= HUGE_PAGE));
    CHECK(memcmp(answer.at, bytes, kept), 0);
    memcpy(answer.at, bytes, to);
    rattle_dealloc(answer.at);
}

static void resizes(void) {
    static const size_t sizes[] = {0, 1, 8, 24, 4096, HUGE_PAGE - 1, HUGE_PAGE, HUGE_PAGE + 1, 3 * HUGE_PAGE + 16};
    enum { SIZES = sizeof sizes / sizeof *sizes };
    for (size_t from = 0; from < SIZES; from++)
        for (size_t to = 0; to < SIZES; to++) {
            resize(sizes[from], sizes[to], least(sizes[from], sizes[to]));
            resize(sizes[from], sizes[to], least(sizes[from], sizes[to]) / 3);
        }
}

/* What can't be had is refused, and a block stays as it was then. */
static void refusals(size_t size) {
    struct answer answer = rattle_alloc((size_t)1 << 61, 8);
    void *at = new_block(size);
    CHECK(answer.is_done, 0);
    CHECK(answer.at != NULL, 1);
    answer = rattle_realloc(at, size, (size_t)1 << 61, 8);
    CHECK(answer.is_done, 0);
    CHECK(answer.at != NULL, 1);
    CHECK(memcmp(at, bytes, size), 0);
    rattle_dealloc(at);
}

/* A list that grows to twice its room whenever it is full. */
static void growth(void) {
    size_t room = 64;
    unsigned char *list = new_block(room);
    while (room < MOST) {
        struct answer answer = rattle_realloc(list, room, 2 * room, 1);
        CHECK(answer.is_done, 1);
        list = answer.at;
        room *= 2;
        memcpy(list, bytes, room);
    }
    CHECK(memcmp(list, bytes, room), 0);
    rattle_dealloc(list);
}

int main(void) {
    for (size_t k = 0; k < MOST; k++)
        bytes[k] = (unsigned char)(k * 7 + k / 251);
    for (int k = 0; k < 2; k++) {
        is_refused = k == 1;
        resizes();
        refusals(100);
        refusals(2 * HUGE_PAGE);
        growth();
    }
    return end_of_checks("heap");
}
