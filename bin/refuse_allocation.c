/* Preloaded into a process: refuses the allocation whose number REFUSED_ALLOCATION gives, or the start of the thread whose number REFUSED_THREAD gives,
   both counted from 1. */
#define _GNU_SOURCE
#include <dlfcn.h>
#include <errno.h>
#include <pthread.h>
#include <stddef.h>
#include <stdlib.h>
#include <unistd.h>

/* How many calls are left until one is refused; at first not known, and 0 where none is. */
static long allocations = -1, threads = -1;

static int is_refused(long *left, const char *name, const char *said, size_t size) {
    if (*left < 0) {
        const char *number = getenv(name);
        *left = number ? atol(number) : 0;
    }
    if (*left <= 0 || --*left > 0) return 0;
    (void)!write(2, said, size);
    return 1;
}

static int is_refused_allocation(void) {
    static const char said[] = "an allocation was refused\n";
    return is_refused(&allocations, "REFUSED_ALLOCATION", said, sizeof said - 1);
}

void *malloc(size_t size) {
    static void *(*next)(size_t);
    if (!next) next = (void *(*)(size_t))dlsym(RTLD_NEXT, "malloc");
    return is_refused_allocation() ? NULL : next(size);
}

void *realloc(void *block, size_t size) {
    static void *(*next)(void *, size_t);
    if (!next) next = (void *(*)(void *, size_t))dlsym(RTLD_NEXT, "realloc");
    return is_refused_allocation() ? NULL : next(block, size);
}

int pthread_create(pthread_t *thread, const pthread_attr_t *attributes, void *(*run)(void *), void *with) {
    static int (*next)(pthread_t *, const pthread_attr_t *, void *(*)(void *), void *);
    static const char said[] = "a thread was refused\n";
    if (!next) next = (int (*)(pthread_t *, const pthread_attr_t *, void *(*)(void *), void *))dlsym(RTLD_NEXT, "pthread_create");
    return is_refused(&threads, "REFUSED_THREAD", said, sizeof said - 1) ? EAGAIN : next(thread, attributes, run, with);
}
