/* A library to preload into a program: the REFUSE_AT-th call of malloc, calloc, realloc or pthread_create fails, and
   each other one goes to the C library. The call that fails writes a byte to the descriptor REFUSE_FD.

   malloc and realloc are all that a Rattle program takes memory by. The C library itself calls calloc where a thread
   starts. Calls before main, as the loader's, aren't counted. */
#define _GNU_SOURCE
#include <dlfcn.h>
#include <errno.h>
#include <pthread.h>
#include <stdatomic.h>
#include <stdlib.h>
#include <unistd.h>

void *__libc_malloc(size_t size);
void *__libc_calloc(size_t number, size_t size);
void *__libc_realloc(void *old, size_t size);

static atomic_long left; /* how many calls there are up to the one that fails; from 0 downwards none fails */
static int told;

__attribute__((constructor)) static void begin(void)
{
    const char *at = getenv("REFUSE_AT"), *to = getenv("REFUSE_FD");
    told = to ? atoi(to) : -1;
    atomic_store(&left, at ? atol(at) : 0);
}

static int is_refused(void)
{
    if (atomic_fetch_sub(&left, 1) != 1)
        return 0;
    if (write(told, "x", 1) != 1)
        abort();
    errno = ENOMEM;
    return 1;
}

void *malloc(size_t size) { return is_refused() ? NULL : __libc_malloc(size); }

void *calloc(size_t number, size_t size) { return is_refused() ? NULL : __libc_calloc(number, size); }

void *realloc(void *old, size_t size) { return is_refused() ? NULL : __libc_realloc(old, size); }

int pthread_create(pthread_t *thread, const pthread_attr_t *how, void *(*start)(void *), void *given)
{
    int (*real)(pthread_t *, const pthread_attr_t *, void *(*)(void *), void *) = dlsym(RTLD_NEXT, "pthread_create");
    return is_refused() ? EAGAIN : real(thread, how, start, given);
}
