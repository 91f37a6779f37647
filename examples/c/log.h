/* Reads a log of groups: FORMATS.md, "Logs". */
#ifndef LOG_H
#define LOG_H

#include <stdbool.h>
#include <stdint.h>
#include <stdio.h>
#include <string.h>

/* The first bytes of a line decide what it says: four blocks, and two bytes after them. */
enum { DECIDING = 21 };

struct line {
    unsigned char bytes[DECIDING];
    size_t length; /* of the whole line, without its end */
};

/* Reads the next line; false at the end. */
static inline bool next_line(struct line *line) {
    int c, last = 0;
    size_t n = 0;
    memset(line, 0, sizeof *line);
    while ((c = getchar()) != EOF && c != '\n') {
        if (n < DECIDING) line->bytes[n] = (unsigned char)c;
        n++;
        last = c;
    }
    if (c == EOF && n == 0) return false;
    line->length = n > 0 && last == '\r' ? n - 1 : n;
    return true;
}

static inline int digit(unsigned char c) {
    if (c >= '0' && c <= '9') return c - '0';
    if (c >= 'A' && c <= 'F') return c - 'A' + 10;
    if (c >= 'a' && c <= 'f') return c - 'a' + 10;
    return -1;
}

/* Reads the four digits of a block. Returns false if one is no digit; nothing behind that byte is read. */
static inline bool read_block(const unsigned char *at, uint16_t *block) {
    unsigned word = 0;
    for (int i = 0; i < 4; i++) {
        int d = digit(at[i]);
        if (d < 0) return false;
        word = 16 * word + (unsigned)d;
    }
    *block = (uint16_t)word;
    return true;
}

enum said { SKIP, GROUP, NOTHING, BAD };

/* What the line says. */
static inline enum said read_line(const struct line *line, uint16_t blocks[4]) {
    enum said said = GROUP;
    if (line->length == 0 || strchr("<#%", line->bytes[0])) {
        /* strchr finds a 0 too */
        return line->length == 0 || line->bytes[0] != 0 ? SKIP : BAD;
    }
    if (line->length < 19 || (line->length > 19 && line->bytes[19] != ' ')) return BAD;
    for (int b = 0; b < 4; b++) {
        const unsigned char *at = line->bytes + 5 * b;
        if (b < 3 && at[4] != ' ') return BAD;
        if (memcmp(at, "----", 4) == 0) {
            said = NOTHING;
            continue;
        }
        if (!read_block(at, &blocks[b])) return BAD;
    }
    return said;
}

#endif
