/* Random bytes in every struct and array, wrong counts, and NULL where the number beside it is 0: each call keeps to what
 * it is given, answers its codes and lengths that lead nowhere else, and changes nothing where it answers an error. Each
 * block is of just its size, so that sanitizers and valgrind see a step outside.   ./any_bytes ROUNDS
 * With -DRDSRT_FUZZ it is a target of libFuzzer, which chooses the bytes (SECURITY.md). */
#include <rdsrt.h>

#include <stdbool.h>
#include <stdio.h>
#include <stdlib.h>
#include <string.h>

#ifdef RDSRT_FUZZ
static const uint8_t *next, *end;

static unsigned roll(unsigned sides) {
    unsigned number = next < end ? *next++ : 0;
    if (sides > 256) number = number << 8 | (next < end ? *next++ : 0);
    return number % sides;
}
#else
static uint64_t state = 88172645463325252u;

static unsigned roll(unsigned sides) {
    state ^= state << 13;
    state ^= state >> 7;
    state ^= state << 17;
    return (unsigned)(state >> 33) % sides;
}
#endif

#define CHECK(fact) do { if (!(fact)) { fprintf(stderr, "line %d: %s\n", __LINE__, #fact); exit(1); } } while (0)

/* So many random bytes: of all values, small ones, or printable ones. */
static void *any(size_t size) {
    uint8_t *at = (uint8_t *)malloc(size ? size : 1);
    unsigned kind = roll(3);
    if (!at) exit(2);
    for (size_t i = 0; i < size; i++) at[i] = (uint8_t)(kind == 0 ? roll(256) : kind == 1 ? roll(4) : 32 + roll(90));
    return at;
}

static void *copy(const void *of, size_t size) {
    void *at = malloc(size ? size : 1);
    if (!at) exit(2);
    memcpy(at, of, size);
    return at;
}

/* Random blocks, often with the programme that stands first in a receiver, and of a group that texts are made of. */
static uint16_t *any_blocks(size_t count, const void *with_programme) {
    static const unsigned kinds[4] = {0x2000, 0xA000, 0x3016, 0xB000};
    uint16_t *blocks = (uint16_t *)any(2 * count);
    if (count == 4 && roll(8)) {
        memcpy(blocks, with_programme, 2);
        blocks[1] = (uint16_t)(kinds[roll(4)] | roll(32));
    }
    return blocks;
}

static bool is_within(const struct rdsrt_text *text) { return text->length <= 64 && text->is_shown <= 1; }

static bool is_cut(const struct rdsrt_tag *tag, const struct rdsrt_text *text) {
    return tag->start + tag->length <= text->length;
}

static void check_view(const struct rdsrt_view *v) {
    CHECK(is_within(&v->text) && is_cut(&v->tag1, &v->text) && is_cut(&v->tag2, &v->text));
    CHECK(v->name.is_shown <= 1 && v->item.is_shown <= 1 && v->item.toggle <= 1 && v->item.running <= 1);
}

/* The call writes all of the struct, whatever the other bytes are. A name has two segments. */
static void check_held(const struct rdsrt_held *one, const struct rdsrt_held *other) {
    CHECK(memcmp(one, other, sizeof *one) == 0);
    CHECK(one->name.held < 4);
}

static void receiver(void) {
    struct rdsrt_receiver *r = (struct rdsrt_receiver *)any(sizeof *r);
    struct rdsrt_view *v = (struct rdsrt_view *)any(sizeof *v);
    unsigned dwell = roll(3), window = roll(300);
    if (roll(4) == 0) {
        CHECK(rdsrt_receiver_init(r, 0xC201, (uint16_t)dwell) == (dwell ? RDSRT_OK : RDSRT_BAD_ARGUMENT));
    } else if (roll(3) == 0) {
        uint32_t code = rdsrt_receiver_init_confirming(r, 0xC201, (uint16_t)dwell, (uint16_t)window);
        CHECK(code == (dwell && window > 1 && window < 256 ? RDSRT_OK : RDSRT_BAD_ARGUMENT));
    }
    for (int i = 0; i < 8; i++) {
        size_t count = roll(3) ? 4 : roll(7);
        uint16_t *blocks = any_blocks(count, r);
        void *before = copy(r, sizeof *r);
        uint32_t code = rdsrt_receiver_slot(r, count ? blocks : NULL, count);
        CHECK((code == RDSRT_BAD_ARGUMENT) == (count != 0 && count != 4) && code <= RDSRT_BAD_ARGUMENT);
        CHECK(code != RDSRT_BAD_ARGUMENT || memcmp(r, before, sizeof *r) == 0);
        rdsrt_receiver_view(r, v);
        check_view(v);
        struct rdsrt_held *h = (struct rdsrt_held *)any(sizeof *h), *other = (struct rdsrt_held *)any(sizeof *h);
        rdsrt_receiver_held(r, h);
        rdsrt_receiver_held(r, other);
        check_held(h, other);
        free(h);
        free(other);
        free(before);
        free(blocks);
    }
    free(r);
    free(v);
}

/* A display has what its receiver shows, or what it showed before. */
static void display(void) {
    struct rdsrt_receiver *r = (struct rdsrt_receiver *)any(sizeof *r);
    struct rdsrt_display *d = (struct rdsrt_display *)any(sizeof *d);
    bool began = roll(2);
    if (roll(2)) CHECK(rdsrt_receiver_init(r, 0xC201, (uint16_t)(1 + roll(3))) == RDSRT_OK);
    if (began) rdsrt_display_init(d, (uint16_t)roll(6));
    for (int i = 0; i < 8; i++) {
        size_t count = roll(3) ? 4 : roll(7);
        uint16_t *blocks = any_blocks(count, r);
        struct rdsrt_display *was = (struct rdsrt_display *)copy(d, sizeof *d);
        struct rdsrt_receiver *alone = (struct rdsrt_receiver *)copy(r, sizeof *r);
        uint32_t code = rdsrt_display_slot(d, r, count ? blocks : NULL, count);
        CHECK((code == RDSRT_BAD_ARGUMENT) == (count != 0 && count != 4) && code <= RDSRT_BAD_ARGUMENT);
        CHECK(code != RDSRT_BAD_ARGUMENT || memcmp(d, was, sizeof *d) == 0);
        CHECK(code != RDSRT_OK || memcmp(&d->view, &was->view, sizeof d->view) == 0);
        rdsrt_receiver_slot(alone, count ? blocks : NULL, count);
        CHECK(memcmp(r, alone, sizeof *r) == 0);
        if (began) check_view(&d->view);
        free(alone);
        free(was);
        free(blocks);
    }
    free(r);
    free(d);
}

/* A set that was refused has changed nothing, and its code is not above `last`. */
static void refused(const struct rdsrt_encoder *e, const void *before, struct rdsrt_reply reply, uint32_t last) {
    CHECK(reply.code <= last && reply.code != RDSRT_SENT && reply.code != RDSRT_BAD_ARGUMENT);
    CHECK(reply.code == RDSRT_OK || memcmp(e, before, sizeof *e) == 0);
}

static void sets(struct rdsrt_encoder *e) {
    size_t length = roll(80), short_length = roll(12);
    uint8_t *text = (uint8_t *)any(length), *name = (uint8_t *)any(short_length);
    struct rdsrt_tags *tags = (struct rdsrt_tags *)any(sizeof *tags);
    void *before = copy(e, sizeof *e);
    struct rdsrt_reply reply = rdsrt_encoder_set_text(e, length ? text : NULL, length);
    CHECK((reply.code == RDSRT_TOO_LONG) == (length > 64));
    CHECK(reply.code != RDSRT_BAD_BYTE || reply.number < length);
    refused(e, before, reply, RDSRT_BAD_BYTE);
    memcpy(before, e, sizeof *e);
    reply = rdsrt_encoder_set_name(e, short_length ? name : NULL, short_length);
    CHECK((reply.code == RDSRT_TOO_LONG) == (short_length > 8));
    refused(e, before, reply, RDSRT_BAD_BYTE);
    memcpy(before, e, sizeof *e);
    refused(e, before, rdsrt_encoder_set_tags(e, tags), RDSRT_BAD_TAGS);
    free(text);
    free(name);
    free(tags);
    free(before);
}

static void encoder(void) {
    struct rdsrt_encoder *e = (struct rdsrt_encoder *)any(sizeof *e);
    unsigned pty = roll(40), dwell = roll(4), late = roll(1200);
    if (roll(4) == 0) {
        uint32_t code = rdsrt_encoder_init(e, 0xC201, (uint8_t)roll(256), (uint8_t)pty, (uint16_t)dwell, (uint16_t)late);
        CHECK(code == (pty < 32 && dwell && late <= 1024 ? RDSRT_OK : RDSRT_BAD_ARGUMENT));
    }
    for (int i = 0; i < 8; i++) {
        struct rdsrt_on_air *air = (struct rdsrt_on_air *)any(sizeof *air);
        struct rdsrt_wait *wait = (struct rdsrt_wait *)any(sizeof *wait);
        uint16_t *blocks = (uint16_t *)any(8), *before = (uint16_t *)copy(blocks, 8);
        sets(e);
        uint32_t code = rdsrt_encoder_tick(e, (uint8_t)roll(3), blocks);
        CHECK(code == RDSRT_SENT || (code == RDSRT_OK && memcmp(blocks, before, 8) == 0));
        uint8_t number = (uint8_t)roll(16);
        memcpy(before, blocks, 8);
        code = rdsrt_exchange_tag_group(number, blocks);
        CHECK((code == RDSRT_OK) == ((number >= 5 && number <= 9) || (number >= 11 && number <= 13)));
        CHECK(code == RDSRT_OK || (code == RDSRT_BAD_ARGUMENT && memcmp(blocks, before, 8) == 0));
        rdsrt_exchange_tag_group(number, blocks);
        CHECK(memcmp(blocks, before, 8) == 0);
        rdsrt_encoder_on_air(e, air);
        CHECK(is_within(&air->text) && air->name.is_shown <= 1);
        rdsrt_encoder_wait(e, wait);
        free(air);
        free(wait);
        free(blocks);
        free(before);
    }
    free(e);
}

static void audit(void) {
    struct rdsrt_audit *a = (struct rdsrt_audit *)any(sizeof *a);
    unsigned dwell = roll(3), late = roll(1200);
    if (roll(4) == 0) {
        unsigned call = roll(3), flags = call == 2 ? roll(6) : 0;
        uint32_t code = call == 2 ? rdsrt_audit_init_with(a, 0xC201, (uint16_t)dwell, (uint16_t)late, flags)
                        : call    ? rdsrt_audit_init_running(a, 0xC201, (uint16_t)dwell, (uint16_t)late)
                                  : rdsrt_audit_init(a, 0xC201, (uint16_t)dwell, (uint16_t)late);
        CHECK(code == (dwell && late <= 1024 && flags < 4 ? RDSRT_OK : RDSRT_BAD_ARGUMENT));
    }
    for (int i = 0; i < 8; i++) {
        size_t count = roll(3) ? 4 : roll(7);
        uint16_t *blocks = any_blocks(count, (const uint8_t *)a + 268);
        void *before = copy(a, sizeof *a);
        uint32_t code = rdsrt_audit_slot(a, count ? blocks : NULL, count);
        CHECK((code == RDSRT_BAD_ARGUMENT) == (count != 0 && count != 4));
        CHECK(code != RDSRT_BAD_ARGUMENT || memcmp(a, before, sizeof *a) == 0);
        CHECK(code == RDSRT_OK || code == RDSRT_BAD_ARGUMENT
              || (code >= RDSRT_FAULT_CHANGED && code <= RDSRT_FAULT_TAG_OUTSIDE));
        struct rdsrt_faults found = {7, 7, 7, 7, 7};
        memcpy(before, a, sizeof *a);
        code = rdsrt_audit_all_faults(a, count ? blocks : NULL, count, &found);
        CHECK(code == (count == 0 || count == 4 ? RDSRT_OK : RDSRT_BAD_ARGUMENT));
        CHECK(code == RDSRT_OK || (memcmp(a, before, sizeof *a) == 0 && found.changed == 7 && found.tag_outside == 7));
        CHECK(code != RDSRT_OK || (found.changed <= 1 && found.early_flag <= 1 && found.not_one_text <= 1
                                   && found.early_tag <= 1 && found.tag_outside <= 1));
        (void)rdsrt_audit_texts(a);
        (void)rdsrt_audit_names(a);
        CHECK(rdsrt_audit_passed(a) <= 1);
        CHECK(rdsrt_audit_texts_turn_the_flag(a) <= rdsrt_audit_passed(a));
        CHECK(rdsrt_audit_names_turn_the_flag(a) <= rdsrt_audit_passed(a));
        free(before);
        free(blocks);
    }
    free(a);
}

/* What was written as UTF-8 is read back, and fits in no less. */
static void texts(void) {
    size_t length = roll(70), room = roll(300), count = 999, again = 999;
    uint8_t *bytes = (uint8_t *)any(length), *utf8 = (uint8_t *)any(room), *back = (uint8_t *)any(length);
    uint32_t code = rdsrt_text_to_utf8(length ? bytes : NULL, length, room ? utf8 : NULL, room, &count);
    CHECK((code == RDSRT_TOO_LONG) == (length > 64) && (code != RDSRT_TOO_LONG || count == 999));
    if (code == RDSRT_NO_ROOM) CHECK(count > room && count <= 256);
    if (code == RDSRT_OK) {
        CHECK(count <= room);
        CHECK(rdsrt_text_from_utf8(count ? utf8 : NULL, count, length ? back : NULL, length, &again) == RDSRT_OK);
        CHECK(again == length && (length == 0 || memcmp(bytes, back, length) == 0));
        if (length) CHECK(rdsrt_text_from_utf8(utf8, count, back, length - 1, &again) == RDSRT_NO_ROOM);
    }
    count = 999;
    code = rdsrt_text_to_display(length ? bytes : NULL, length, room ? utf8 : NULL, room, &count);
    CHECK((code == RDSRT_TOO_LONG) == (length > 64) && (code != RDSRT_TOO_LONG || count == 999));
    if (code == RDSRT_NO_ROOM) CHECK(count > room && count <= 192);
    if (code == RDSRT_OK) CHECK(count <= room && count >= length);
    code = rdsrt_text_from_utf8(bytes, length, back, length, &again);
    CHECK(code == RDSRT_OK ? again <= length : code >= RDSRT_NOT_UTF8 && code <= RDSRT_NO_ROOM);
    free(bytes);
    free(utf8);
    free(back);
}

static uint64_t any_number(void) {
    uint64_t number = 0;
    for (unsigned bytes = roll(9); bytes; bytes--) number = number << 8 | roll(256);
    return number;
}

static void times(void) {
    static const uint64_t hour = UINT64_C(3600000000);
    size_t length = roll(60);
    uint8_t *text = (uint8_t *)any(length);
    uint64_t time = 7, earlier = any_number(), later = roll(2) ? earlier + any_number() % (2 * hour) : any_number();
    uint32_t code = rdsrt_time_in(length ? text : NULL, length, &time), grain = roll(2) ? roll(100) : 87500 + roll(200);
    CHECK(code == RDSRT_OK || (code == RDSRT_UNKNOWN && time == 7));
    code = rdsrt_lost_slots(earlier, later, grain);
    CHECK((code == RDSRT_UNKNOWN) == (later < earlier || later - earlier > hour || grain >= 87579));
    CHECK(code == RDSRT_UNKNOWN || code == 0 || rdsrt_slot_time(code) < later - earlier);
    free(text);
}

static bool is_label(const struct rdsrt_label *label) {
    for (size_t i = 0; i < sizeof label->bytes; i++) {
        if ((label->bytes[i] != 0) != (i < label->length)) return false;
    }
    return label->length <= 30;
}

static void names(void) {
    struct rdsrt_label *label = (struct rdsrt_label *)any(sizeof *label);
    rdsrt_type_name((uint8_t)roll(256), label);
    CHECK(is_label(label));
    rdsrt_code_name(roll(2) ? roll(30) : (uint32_t)any_number(), label);
    CHECK(is_label(label));
    CHECK(rdsrt_version().abi == RDSRT_ABI);
    free(label);
}

static void (*const CALLS[])(void) = {receiver, display, encoder, audit, texts, times, names};
enum { COUNT = sizeof CALLS / sizeof *CALLS };

#ifdef RDSRT_FUZZ
int LLVMFuzzerTestOneInput(const uint8_t *bytes, size_t size) {
    next = bytes;
    end = bytes + size;
    CALLS[roll(COUNT)]();
    return 0;
}
#else
int main(int count, char **words) {
    long rounds = count > 1 ? atol(words[1]) : 10000;
    for (long i = 0; i < rounds; i++) {
        for (int it = 0; it < COUNT; it++) CALLS[it]();
    }
    puts("ok");
    return 0;
}
#endif
