/* The heap of the proved part: what it asks memory of, by the names that its compiler gives these calls.
 *
 * They stand on malloc, posix_memalign, realloc and free, which must be of one allocator, and align a block to each power
 * of two up to 16 that divides its size. An answer has `is_done` 1 and the block, or 0 and an address that is never used.
 * A block of a huge page or more begins where one does, and asks for them: a processor then finds the words of a table
 * with far fewer looks at its page tables. Where the system gives none, or refuses, the block is one of small pages. */
#define _DEFAULT_SOURCE
#include <stddef.h>
#include <stdint.h>
#include <stdlib.h>
#include <string.h>
#include <sys/mman.h>

struct answer {
    uint64_t is_done;
    void *at;
};

struct answer rattle_alloc(size_t size, size_t align);
struct answer rattle_realloc(void *at, size_t kept, size_t size, size_t align);
void rattle_dealloc(void *at);

enum { HUGE_PAGE = 1 << 21 };

static _Alignas(16) char nothing[16];

static struct answer answer_of(void *at) {
    struct answer answer = {at != NULL, at != NULL ? at : nothing};
    return answer;
}

static void *large_block(size_t size) {
    void *at;
    if (posix_memalign(&at, HUGE_PAGE, size) != 0)
        return NULL;
    (void)madvise(at, size, MADV_HUGEPAGE);
    return at;
}

struct answer rattle_alloc(size_t size, size_t align) {
    if (size >= HUGE_PAGE)
        return answer_of(large_block(size));
    return answer_of(malloc(size != 0 ? size : align));
}

/* Only the first `kept` bytes stay as they were. To a large block they are copied, since one that realloc has moved would
 * lie on small pages. That is linear in all: a list that grows asks for twice its room. */
struct answer rattle_realloc(void *at, size_t kept, size_t size, size_t align) {
    void *to;
    if (size < HUGE_PAGE)
        return answer_of(realloc(at, size != 0 ? size : align));
    to = large_block(size);
    if (to != NULL) {
        memcpy(to, at, kept);
        free(at);
    }
    return answer_of(to);
}

void rattle_dealloc(void *at) { free(at); }
