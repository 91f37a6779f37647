/* Refuses one request for memory: the one that REFUSE names, counted from 1. Where it did, a byte goes to the open
   file that REFUSED_TO names by its number. Made for LD_PRELOAD, so that a test can see what a program does where
   there is no memory. */
#define _GNU_SOURCE
#include <dlfcn.h>
#include <stdlib.h>
#include <unistd.h>

static unsigned long asked;

static int is_refused(void) {
    const char *named = getenv("REFUSE"), *told = getenv("REFUSED_TO");
    if (!named || ++asked != strtoul(named, NULL, 10)) {
        return 0;
    }
    if (told && write(atoi(told), "!", 1) != 1) {
        abort();
    }
    return 1;
}

#define NEXT(type, name) ((type)dlsym(RTLD_NEXT, name))

void *malloc(size_t size) {
    return is_refused() ? NULL : NEXT(void *(*)(size_t), "malloc")(size);
}

void *calloc(size_t count, size_t size) {
    return is_refused() ? NULL : NEXT(void *(*)(size_t, size_t), "calloc")(count, size);
}

void *realloc(void *held, size_t size) {
    return is_refused() ? NULL : NEXT(void *(*)(void *, size_t), "realloc")(held, size);
}

void *aligned_alloc(size_t alignment, size_t size) {
    return is_refused() ? NULL : NEXT(void *(*)(size_t, size_t), "aligned_alloc")(alignment, size);
}

int posix_memalign(void **to, size_t alignment, size_t size) {
    return is_refused() ? 12 : NEXT(int (*)(void **, size_t, size_t), "posix_memalign")(to, alignment, size);
}
