/* A wrapper over the C library's allocation: the call of the number REFUSE_AT, from 1, finds no memory.
   The number of calls is written to the file REFUSE_COUNT where the program ends. */
#define _GNU_SOURCE
#include <dlfcn.h>
#include <errno.h>
#include <stdio.h>
#include <stdlib.h>

static unsigned long calls, at;
static int ready;

static int refused(void) {
    if (!ready) {
        const char *asked = getenv("REFUSE_AT");
        at = asked ? strtoul(asked, 0, 10) : 0;
        ready = 1;
    }
    if (++calls != at)
        return 0;
    errno = ENOMEM;
    return 1;
}

static void *next(const char *name) {
    void *found = dlsym(RTLD_NEXT, name);
    if (!found)
        abort();
    return found;
}

void *malloc(size_t size) {
    static void *(*real)(size_t);
    if (!real)
        real = next("malloc");
    return refused() ? 0 : real(size);
}

void *realloc(void *old, size_t size) {
    static void *(*real)(void *, size_t);
    if (!real)
        real = next("realloc");
    return refused() ? 0 : real(old, size);
}

void *calloc(size_t count, size_t size) {
    static void *(*real)(size_t, size_t);
    if (!real)
        real = next("calloc");
    return refused() ? 0 : real(count, size);
}

int posix_memalign(void **out, size_t align, size_t size) {
    static int (*real)(void **, size_t, size_t);
    if (!real)
        real = next("posix_memalign");
    return refused() ? ENOMEM : real(out, align, size);
}

void *aligned_alloc(size_t align, size_t size) {
    static void *(*real)(size_t, size_t);
    if (!real)
        real = next("aligned_alloc");
    return refused() ? 0 : real(align, size);
}

__attribute__((destructor)) static void tell(void) {
    const char *path = getenv("REFUSE_COUNT");
    FILE *file;
    unsigned long counted = calls;
    at = 0;
    if (path && (file = fopen(path, "w"))) {
        fprintf(file, "%lu\n", counted);
        fclose(file);
    }
}
