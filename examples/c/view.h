/* Prints what a receiver shows as `rdsrt decode` does: a line for each part of the view that changed. */
#ifndef VIEW_H
#define VIEW_H

#include <rdsrt.h>

#include <stdbool.h>
#include <stdio.h>
#include <stdlib.h>
#include <string.h>

/* `rdsrt decode` prints the names up to ITEM.GENRE, and numbers of the others. */
enum { LAST_NAMED = 11 };

/* Prints bytes of the RDS table as UTF-8. At most 64 of them never take more than 256. */
static inline void print_bytes(const uint8_t *bytes, size_t length) {
    uint8_t utf8[256];
    size_t count = 0;
    if (rdsrt_text_to_utf8(bytes, length, utf8, sizeof utf8, &count) != RDSRT_OK) abort();
    printf("\"%.*s\"\n", (int)count, (const char *)utf8);
}

static inline void print_shown(unsigned long slot, const char *part, bool is_shown, const uint8_t *bytes,
                               size_t length) {
    printf("%lu %s ", slot, part);
    if (is_shown) {
        print_bytes(bytes, length);
    } else {
        puts("none");
    }
}

static inline void print_item(unsigned long slot, const struct rdsrt_item *item) {
    if (item->is_shown) {
        printf("%lu item %d %d\n", slot, item->toggle, item->running);
    } else {
        printf("%lu item none\n", slot);
    }
}

static inline void print_tag(unsigned long slot, const char *part, const struct rdsrt_tag *tag, const uint8_t *text) {
    printf("%lu %s ", slot, part);
    if (tag->content_type == 0) {
        puts("none");
        return;
    }
    if (tag->content_type <= LAST_NAMED) {
        struct rdsrt_label name;
        rdsrt_type_name(tag->content_type, &name);
        printf("%s ", name.bytes);
    } else {
        printf("%d ", tag->content_type);
    }
    print_bytes(text + tag->start, tag->length);
}

static inline bool same_text(const struct rdsrt_text *a, const struct rdsrt_text *b) {
    return a->is_shown == b->is_shown && a->length == b->length && memcmp(a->bytes, b->bytes, a->length) == 0;
}

static inline bool same_name(const struct rdsrt_name *a, const struct rdsrt_name *b) {
    return a->is_shown == b->is_shown && (!a->is_shown || memcmp(a->bytes, b->bytes, sizeof a->bytes) == 0);
}

static inline bool same_item(const struct rdsrt_item *a, const struct rdsrt_item *b) {
    return a->is_shown == b->is_shown && (!a->is_shown || (a->toggle == b->toggle && a->running == b->running));
}

/* Two tags are the same if their types are, and their pieces of the text. */
static inline bool same_tag(const struct rdsrt_tag *a, const uint8_t *a_text, const struct rdsrt_tag *b,
                            const uint8_t *b_text) {
    return a->content_type == b->content_type && a->length == b->length
        && memcmp(a_text + a->start, b_text + b->start, a->length) == 0;
}

/* Prints the parts of the view that are not as they were. */
static inline void print_changes(unsigned long slot, const struct rdsrt_view *was, const struct rdsrt_view *is) {
    if (!same_text(&was->text, &is->text)) {
        print_shown(slot, "text", is->text.is_shown, is->text.bytes, is->text.length);
    }
    if (!same_name(&was->name, &is->name)) print_shown(slot, "name", is->name.is_shown, is->name.bytes, 8);
    if (!same_item(&was->item, &is->item)) print_item(slot, &is->item);
    if (!same_tag(&was->tag1, was->text.bytes, &is->tag1, is->text.bytes)) {
        print_tag(slot, "tag1", &is->tag1, is->text.bytes);
    }
    if (!same_tag(&was->tag2, was->text.bytes, &is->tag2, is->text.bytes)) {
        print_tag(slot, "tag2", &is->tag2, is->text.bytes);
    }
}

#endif
