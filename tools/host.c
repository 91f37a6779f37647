/* Six functions in C that the program calls: blocks of the heap, the words of the command line, and errno.
 *
 * The kit has them compiled for x86-64 alone, without their source. This file replaces them on 64-bit Arm. Each
 * function does what the kit's contract of it promises. No proof covers this file: it is trusted, as the kit's own C
 * code is.
 */
#include <errno.h>
#include <stdbool.h>
#include <stddef.h>
#include <stdint.h>
#include <stdlib.h>

/* A block, if there is memory. If not, p points to a byte that nobody reads. */
struct block {
    bool ok;
    void *p;
};

static char nothing;

static struct block block_or_nothing(void *p) {
    return p ? (struct block){true, p} : (struct block){false, &nothing};
}

/* malloc aligns blocks to 16 bytes, and the kit asks for no more. A block of 0 bytes needs an address of its own. */
struct block rattle_alloc(size_t size, size_t align) { return block_or_nothing(malloc(size ? size : align)); }

struct block rattle_realloc(void *p, size_t kept, size_t size, size_t align) {
    (void)kept;
    return block_or_nothing(realloc(p, size ? size : align));
}

void rattle_dealloc(void *p) { free(p); }

/* glibc passes the words to each function in .init_array, before main runs. */
static int count;
static char **words;

static void keep_words(int argc, char **argv) {
    count = argc;
    words = argv;
}

__attribute__((section(".init_array"), used)) static void (*const at_start)(int, char **) = keep_words;

/* Writes word i into the buffer and returns its length. Returns -1 if there is no such word, -2 if it does not fit. */
ptrdiff_t rattle_arg(size_t i, char *into, size_t room) {
    if (i >= (size_t)count || !words[i]) return -1;
    for (size_t length = 0;; length++) {
        if (!words[i][length]) return (ptrdiff_t)length;
        if (length == room) return -2;
        into[length] = words[i][length];
    }
}

int rattle_errno(void) { return errno; }

void rattle_set_errno(int error) { errno = error; }
