/* Does what `rdsrt encode` does, for scripts without a line feed in a field: reads one slot a row, and prints the
 * station's group in it, with the replies to the commands as comments.
 *
 *     export PKG_CONFIG_PATH=~/rdsrt/lib/pkgconfig
 *     cc encode.c $(pkg-config --cflags --libs rdsrt) -Wl,-rpath,$(pkg-config --variable=libdir rdsrt) -o encode
 *     ./encode C201 10 < script.csv
 *
 * Arguments: PI PTY [DWELL [LATE]]. `./install ~/rdsrt` installs the library. */
#include <rdsrt.h>

#include <stdbool.h>
#include <stdio.h>
#include <stdlib.h>
#include <string.h>

struct station {
    struct rdsrt_encoder encoder;
    uint16_t pi, dwell, late;
    uint8_t pty;
};

/* Returns the next field of a row, up to a comma. NULL if there is none. Between quotation marks a comma is a byte of
 * the field, and two quotation marks are one. */
static char *field(char **row) {
    char *start = *row, *from = start, *to = start;
    bool quoted = *from == '"';
    if (quoted) from++;
    while (*from && (quoted || *from != ',')) {
        if (quoted && *from == '"') {
            from++;
            if (*from != '"') break;
        }
        *to++ = *from++;
    }
    if (*from != ',') return NULL;
    *to = 0;
    *row = from + 1;
    return start;
}

static void print_reply(unsigned long slot, const char *command, struct rdsrt_reply reply) {
    printf("# %lu %s ", slot, command);
    switch (reply.code) {
    case RDSRT_OK: puts("ok"); break;
    case RDSRT_SILENT: printf("silent %u\n", (unsigned)reply.number); break;
    case RDSRT_HELD: printf("held %u\n", (unsigned)reply.number); break;
    case RDSRT_NO_TEXT: puts("notext"); break;
    case RDSRT_OUT_OF_TEXT_1: puts("outoftext 1"); break;
    default: puts("outoftext 2"); break;
    }
}

static void tag_of(struct rdsrt_tag *tag, unsigned content_type, unsigned start, unsigned extra) {
    tag->content_type = (uint8_t)content_type;
    tag->start = (uint8_t)start;
    tag->length = (uint8_t)(content_type ? extra + 1 : 0);
}

/* The eight numbers of tags: an extra is the number of characters less one. */
static bool read_tags(const char *argument, struct rdsrt_tags *tags) {
    unsigned n[8];
    if (sscanf(argument, "%u %u %u %u %u %u %u %u", n, n + 1, n + 2, n + 3, n + 4, n + 5, n + 6, n + 7) != 8) return false;
    for (int i = 0; i < 8; i++) {
        if (n[i] > 63) return false;
    }
    tags->toggle = (uint8_t)n[0];
    tags->running = (uint8_t)n[1];
    tag_of(&tags->tag1, n[2], n[3], n[4]);
    tag_of(&tags->tag2, n[5], n[6], n[7]);
    return true;
}

static bool is_refused_for_its_bytes(struct rdsrt_reply reply) {
    return reply.code == RDSRT_TOO_LONG || reply.code == RDSRT_BAD_BYTE || reply.code == RDSRT_BAD_TAGS;
}

static uint32_t start(struct station *it) {
    return rdsrt_encoder_init(&it->encoder, it->pi, 0, it->pty, it->dwell, it->late);
}

/* Runs the command of a row, and prints the reply. Returns false if the row is malformed. */
static bool obey(struct station *it, unsigned long slot, const char *command, const char *argument) {
    uint8_t bytes[64];
    size_t length = 0;
    struct rdsrt_tags tags;
    struct rdsrt_reply reply;
    if (strcmp(command, "-") == 0) return true;
    if (strcmp(command, "restart") == 0) {
        start(it);
        printf("# %lu restart\n", slot);
        return true;
    }
    if (strcmp(command, "tags") == 0) {
        if (!read_tags(argument, &tags)) return false;
        reply = rdsrt_encoder_set_tags(&it->encoder, &tags);
    } else {
        const uint8_t *utf8 = (const uint8_t *)argument;
        if (rdsrt_text_from_utf8(utf8, strlen(argument), bytes, sizeof bytes, &length) != RDSRT_OK) return false;
        reply = strcmp(command, "text") == 0 ? rdsrt_encoder_set_text(&it->encoder, bytes, length)
                                             : rdsrt_encoder_set_name(&it->encoder, bytes, length);
    }
    if (is_refused_for_its_bytes(reply)) return false;
    print_reply(slot, command, reply);
    return true;
}

int main(int count, char **words) {
    char line[4096];
    struct station it;
    uint16_t blocks[4];
    it.pi = (uint16_t)(count > 2 ? strtoul(words[1], NULL, 16) : 0);
    it.pty = (uint8_t)(count > 2 ? strtoul(words[2], NULL, 10) : 255);
    it.dwell = (uint16_t)(count > 3 ? strtoul(words[3], NULL, 10) : RDSRT_DEFAULT_DWELL);
    it.late = (uint16_t)(count > 4 ? strtoul(words[4], NULL, 10) : 0);

    if (start(&it) != RDSRT_OK) {
        fputs("usage: encode PI PTY [DWELL [LATE]] < script\n", stderr);
        return 2;
    }
    for (unsigned long slot = 0; fgets(line, sizeof line, stdin); slot++) {
        char *row = line, *command = field(&row);
        char *argument = command ? field(&row) : NULL, *is_free = argument ? field(&row) : NULL;
        if (!is_free || !obey(&it, slot, command, argument)) {
            printf("# fault row %lu\n", slot + 1);
            return 1;
        }
        if (rdsrt_encoder_tick(&it.encoder, *is_free == '1', blocks) == RDSRT_SENT) {
            printf("%04X %04X %04X %04X\n", blocks[0], blocks[1], blocks[2], blocks[3]);
        } else {
            puts("---- ---- ---- ----");
        }
    }
    return 0;
}
