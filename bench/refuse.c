/* Refuses one allocation of a program, or every thread; preloaded by bench/refused.
   REFUSE_AT=N: the Nth allocation is refused, counted from 1 over all threads. REFUSE_THREADS=1: no thread can be had.
   REFUSE_COUNT=FILE: the number of allocations that were asked for stands there, in its first eight bytes. */
#define _GNU_SOURCE
#include <errno.h>
#include <fcntl.h>
#include <pthread.h>
#include <stdatomic.h>
#include <stdlib.h>
#include <sys/mman.h>

void *__libc_malloc(size_t size);
void *__libc_calloc(size_t count, size_t size);
void *__libc_realloc(void *block, size_t size);
void *__libc_memalign(size_t align, size_t size);

static atomic_ulong own, *asked = &own;
static unsigned long refused_at;
static int begun;

/* Nothing is refused before the program's own code begins. */
static int is_refused(void) {
    return begun && atomic_fetch_add(asked, 1) + 1 == refused_at;
}

__attribute__((constructor)) static void begin(void) {
    const char *at = getenv("REFUSE_AT"), *name = getenv("REFUSE_COUNT");
    int file = name ? open(name, O_RDWR) : -1;
    void *shared = file < 0 ? MAP_FAILED : mmap(NULL, sizeof *asked, PROT_READ | PROT_WRITE, MAP_SHARED, file, 0);
    if (shared != MAP_FAILED) asked = shared;
    refused_at = at ? strtoul(at, NULL, 10) : 0;
    begun = 1;
}

void *malloc(size_t size) {
    if (is_refused()) return errno = ENOMEM, NULL;
    return __libc_malloc(size);
}

void *calloc(size_t count, size_t size) {
    if (is_refused()) return errno = ENOMEM, NULL;
    return __libc_calloc(count, size);
}

void *realloc(void *block, size_t size) {
    if (is_refused()) return errno = ENOMEM, NULL;
    return __libc_realloc(block, size);
}

void *aligned_alloc(size_t align, size_t size) {
    if (is_refused()) return errno = ENOMEM, NULL;
    return __libc_memalign(align, size);
}

int posix_memalign(void **block, size_t align, size_t size) {
    if (is_refused()) return ENOMEM;
    *block = __libc_memalign(align, size);
    return *block ? 0 : ENOMEM;
}

typedef int create(pthread_t *, const pthread_attr_t *, void *(*)(void *), void *);
extern create *dlsym(void *, const char *);

int pthread_create(pthread_t *thread, const pthread_attr_t *attributes, void *(*start)(void *), void *given) {
    if (getenv("REFUSE_THREADS")) return EAGAIN;
    return dlsym((void *)-1L, "pthread_create")(thread, attributes, start, given);
}
