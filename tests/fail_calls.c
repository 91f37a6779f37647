/* Cuts reads of standard input and writes to standard output short, and makes one of each fail. READ_MOST and
   WRITE_MOST say how many bytes a call gives or takes at most. READ_FAILS and WRITE_FAILS say which call fails, counted
   from 1, and WRITE_TAKES_0 which write answers 0. Where one isn't there or is 0, no call is cut, and none fails. The
   calls go to the open file that CALLS_TO names by its number, a letter each: r and w, or R and W for a read or a write
   that failed or took 0 bytes. Made for LD_PRELOAD, so that a test can see what a program does at each failure. */
#define _GNU_SOURCE
#include <dlfcn.h>
#include <errno.h>
#include <stdlib.h>
#include <unistd.h>

static unsigned long reads, writes;

static unsigned long number(const char *name) {
    const char *given = getenv(name);
    return given ? strtoul(given, NULL, 10) : 0;
}

#define NEXT(type, name) ((type)dlsym(RTLD_NEXT, name))

static ssize_t pass_write(int to, const void *bytes, size_t count) {
    return NEXT(ssize_t (*)(int, const void *, size_t), "write")(to, bytes, count);
}

static void note(char call) {
    if (pass_write(number("CALLS_TO"), &call, 1) != 1) {
        abort();
    }
}

/* How many bytes of a call may pass, or -1 where it fails. */
static ssize_t allowed(unsigned long call_number, const char *most, const char *fails, char call, size_t count) {
    if (call_number == number(fails)) {
        note(call - 'a' + 'A');
        errno = EIO;
        return -1;
    }
    note(call);
    return number(most) && number(most) < count ? number(most) : count;
}

ssize_t read(int from, void *bytes, size_t count) {
    ssize_t passes = from == 0 ? allowed(++reads, "READ_MOST", "READ_FAILS", 'r', count) : (ssize_t)count;
    return passes < 0 ? -1 : NEXT(ssize_t (*)(int, void *, size_t), "read")(from, bytes, passes);
}

ssize_t write(int to, const void *bytes, size_t count) {
    if (to == 1 && ++writes == number("WRITE_TAKES_0")) {
        note('W');
        return 0;
    }
    ssize_t passes = to == 1 ? allowed(writes, "WRITE_MOST", "WRITE_FAILS", 'w', count) : (ssize_t)count;
    return passes < 0 ? -1 : pass_write(to, bytes, passes);
}
