// Refuses the request for memory whose number the variable REFUSED tells, counted from 1, and each
// new thread where the variable ALONE is set. Load it before the C library. Where REFUSED is 0 it
// refuses no request. At the end it writes to file descriptor 9, where that is open, how many
// requests there were, how many bytes they asked for, and how many threads were asked for. Threads
// count together. A program that has threads ends by `_exit`, past all destructors.
#define _GNU_SOURCE
#include <dlfcn.h>
#include <errno.h>
#include <pthread.h>
#include <stdatomic.h>
#include <stddef.h>
#include <stdio.h>
#include <stdlib.h>

static atomic_ulong requests, bytes, threads;
static unsigned long refused;

__attribute__((constructor)) static void begin(void) {
    const char *number = getenv("REFUSED");
    refused = number ? strtoul(number, NULL, 10) : 0;
    requests = 0;
}

__attribute__((destructor)) static void end(void) {
    unsigned long count = atomic_load(&requests), size = atomic_load(&bytes);
    refused = 0;
    dprintf(9, "%lu %lu %lu\n", count, size, (unsigned long)atomic_load(&threads));
}

void _exit(int status) {
    void (*next)(int) = (void (*)(int))dlsym(RTLD_NEXT, "_exit");
    end();
    next(status);
    __builtin_unreachable();
}

static int is_refused(size_t size) {
    atomic_fetch_add(&bytes, size);
    unsigned long number = atomic_fetch_add(&requests, 1) + 1;
    if (number != refused) {
        return 0;
    }
    errno = ENOMEM;
    return 1;
}

void *malloc(size_t size) {
    static void *(*next)(size_t);
    if (!next) {
        next = (void *(*)(size_t))dlsym(RTLD_NEXT, "malloc");
    }
    return is_refused(size) ? NULL : next(size);
}

void *realloc(void *block, size_t size) {
    static void *(*next)(void *, size_t);
    if (!next) {
        next = (void *(*)(void *, size_t))dlsym(RTLD_NEXT, "realloc");
    }
    return is_refused(size) ? NULL : next(block, size);
}

int pthread_create(pthread_t *made, const pthread_attr_t *with, void *(*run)(void *), void *of) {
    static int (*next)(pthread_t *, const pthread_attr_t *, void *(*)(void *), void *);
    if (!next) {
        next = (int (*)(pthread_t *, const pthread_attr_t *, void *(*)(void *), void *))
            dlsym(RTLD_NEXT, "pthread_create");
    }
    atomic_fetch_add(&threads, 1);
    return getenv("ALONE") ? EAGAIN : next(made, with, run, of);
}
