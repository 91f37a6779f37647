/* Each call once as a user makes it, and each code that it can answer; what is expected is taken from docs/FORMATS.md and
 * the header, not from the library. */
#include <rdsrt.h>

#include <stdio.h>
#include <stdlib.h>
#include <string.h>

#define CHECK(fact) do { if (!(fact)) { fprintf(stderr, "line %d: %s\n", __LINE__, #fact); exit(1); } } while (0)

static const uint16_t hi[4] = {0xC201, 0x2140, 0x4849, 0x0D20};
static const uint16_t yo[4] = {0xC201, 0x2150, 0x594F, 0x0D20};
static const uint16_t changed_hi[4] = {0xC201, 0x2140, 0x594F, 0x0D20};
static const uint16_t announcement[4] = {0xC201, 0x3156, 0x0000, 0x4BD7};
/* the tag that names both characters the artist, and no second one */
static const uint16_t tags_of_hi[4] = {0xC201, 0xB158, 0x8002, 0x0000};

static const uint8_t *bytes(const char *text) { return (const uint8_t *)text; }

static void version(void) {
    struct rdsrt_version it = rdsrt_version();
    CHECK(it.abi == RDSRT_ABI && it.major == RDSRT_VERSION_MAJOR);
    CHECK(it.minor == RDSRT_VERSION_MINOR && it.patch == RDSRT_VERSION_PATCH);
}

/* One group makes a text whole, and a dwell of slots in which nothing came ends it. */
static void receiver(void) {
    struct rdsrt_receiver it;
    struct rdsrt_view view;
    CHECK(rdsrt_receiver_init(&it, 0xC201, 0) == RDSRT_BAD_ARGUMENT);
    CHECK(rdsrt_receiver_init(&it, 0xC201, 2) == RDSRT_OK);
    CHECK(rdsrt_receiver_slot(&it, hi, 3) == RDSRT_BAD_ARGUMENT);
    CHECK(rdsrt_receiver_slot(&it, hi, 4) == RDSRT_CHANGED);
    rdsrt_receiver_view(&it, &view);
    CHECK(view.text.is_shown == 1 && view.text.length == 2 && memcmp(view.text.bytes, "HI", 2) == 0);
    CHECK(!view.name.is_shown && !view.item.is_shown && !view.tag1.content_type && !view.tag2.content_type);
    CHECK(rdsrt_receiver_slot(&it, hi, 4) == RDSRT_OK);
    CHECK(rdsrt_receiver_slot(&it, NULL, 0) == RDSRT_OK);
    CHECK(rdsrt_receiver_slot(&it, NULL, 0) == RDSRT_CHANGED);
    rdsrt_receiver_view(&it, &view);
    CHECK(view.text.is_shown == 0);
}

/* Tags are shown once RadioText Plus was announced, as places of the text. */
static void tags_shown(void) {
    struct rdsrt_receiver it;
    struct rdsrt_view view;
    CHECK(rdsrt_receiver_init(&it, 0xC201, 128) == RDSRT_OK);
    rdsrt_receiver_slot(&it, hi, 4);
    rdsrt_receiver_slot(&it, announcement, 4);
    CHECK(rdsrt_receiver_slot(&it, tags_of_hi, 4) == RDSRT_CHANGED);
    rdsrt_receiver_view(&it, &view);
    CHECK(view.item.is_shown == 1 && view.item.toggle == 1 && view.item.running == 1);
    CHECK(view.tag1.content_type == 4 && view.tag1.start == 0 && view.tag1.length == 2);
    CHECK(view.tag2.content_type == 0 && view.tag2.start == 0 && view.tag2.length == 0);
}

/* With a window a text is shown once it came twice less than a window apart, and so are its tags. */
static void confirming(void) {
    struct rdsrt_receiver it;
    struct rdsrt_view view;
    CHECK(rdsrt_receiver_init_confirming(&it, 0xC201, 0, 3) == RDSRT_BAD_ARGUMENT);
    CHECK(rdsrt_receiver_init_confirming(&it, 0xC201, 8, 1) == RDSRT_BAD_ARGUMENT);
    CHECK(rdsrt_receiver_init_confirming(&it, 0xC201, 8, 256) == RDSRT_BAD_ARGUMENT);
    CHECK(rdsrt_receiver_init_confirming(&it, 0xC201, 8, 255) == RDSRT_OK);
    CHECK(rdsrt_receiver_init_confirming(&it, 0xC201, 8, 3) == RDSRT_OK);
    CHECK(rdsrt_receiver_slot(&it, hi, 3) == RDSRT_BAD_ARGUMENT);
    CHECK(rdsrt_receiver_slot(&it, hi, 4) == RDSRT_OK && rdsrt_receiver_slot(&it, NULL, 0) == RDSRT_OK);
    CHECK(rdsrt_receiver_slot(&it, NULL, 0) == RDSRT_OK && rdsrt_receiver_slot(&it, hi, 4) == RDSRT_OK);
    rdsrt_receiver_view(&it, &view);
    CHECK(!view.text.is_shown && !view.name.is_shown && !view.item.is_shown && !view.tag1.content_type);
    CHECK(rdsrt_receiver_slot(&it, NULL, 0) == RDSRT_OK && rdsrt_receiver_slot(&it, hi, 4) == RDSRT_CHANGED);
    CHECK(rdsrt_receiver_slot(&it, announcement, 4) == RDSRT_OK && rdsrt_receiver_slot(&it, tags_of_hi, 4) == RDSRT_OK);
    CHECK(rdsrt_receiver_slot(&it, tags_of_hi, 4) == RDSRT_CHANGED);
    rdsrt_receiver_view(&it, &view);
    CHECK(view.text.is_shown == 1 && view.text.length == 2 && memcmp(view.text.bytes, "HI", 2) == 0);
    CHECK(view.item.is_shown == 1 && view.tag1.content_type == 4 && view.tag1.start == 0 && view.tag1.length == 2);
}

/* Which segments are held, and how long ago the newest one came. */
static void held(void) {
    static const uint16_t last[4] = {0xC201, 0x214F, 0x4142, 0x4344}, name[4] = {0xC201, 0xA141, 0x4142, 0x4344};
    struct rdsrt_receiver it, other;
    struct rdsrt_held is;
    CHECK(rdsrt_receiver_init(&it, 0xC201, 3) == RDSRT_OK);
    rdsrt_receiver_held(&it, &is);
    CHECK(is.text.held == 0 && is.text.age == 3 && is.name.held == 0 && is.name.age == 3);
    rdsrt_receiver_slot(&it, hi, 4);
    rdsrt_receiver_slot(&it, last, 4);
    rdsrt_receiver_slot(&it, name, 4);
    rdsrt_receiver_held(&it, &is);
    CHECK(is.text.held == 0x8001 && is.text.age == 1 && is.name.held == 2 && is.name.age == 0);
    /* the other flag drops the segments before it */
    rdsrt_receiver_slot(&it, yo, 4);
    rdsrt_receiver_held(&it, &is);
    CHECK(is.text.held == 1 && is.text.age == 0 && is.name.held == 2 && is.name.age == 1);
    rdsrt_receiver_slot(&it, NULL, 0);
    rdsrt_receiver_slot(&it, NULL, 0);
    rdsrt_receiver_held(&it, &is);
    CHECK(is.text.held == 1 && is.text.age == 2 && is.name.held == 0 && is.name.age == 3);
    CHECK(rdsrt_receiver_init_confirming(&other, 0xC201, 8, 3) == RDSRT_OK);
    rdsrt_receiver_slot(&other, hi, 4);
    rdsrt_receiver_held(&other, &is);
    CHECK(is.text.held == 0 && is.text.age == 8);
    rdsrt_receiver_slot(&other, hi, 4);
    rdsrt_receiver_held(&other, &is);
    CHECK(is.text.held == 1 && is.text.age == 0 && is.name.held == 0 && is.name.age == 8);
}

/* Whether the display shows this text, or none. */
static int shows(const struct rdsrt_display *display, const char *text) {
    const struct rdsrt_text *shown = &display->view.text;
    if (!text) return !shown->is_shown && !shown->length;
    return shown->is_shown && shown->length == strlen(text) && memcmp(shown->bytes, text, shown->length) == 0;
}

/* A display that keeps for 3 slots shows the text, and its tag, for 3 slots longer than the receiver; a segment with the
 * other flag ends it at once, and so does another text. */
static void display(void) {
    static const uint16_t part[4] = {0xC201, 0x2151, 0x594F, 0x0D20};
    struct rdsrt_receiver it;
    struct rdsrt_display display;
    struct rdsrt_view view;
    CHECK(rdsrt_receiver_init(&it, 0xC201, 3) == RDSRT_OK);
    memset(&display, 0xA5, sizeof display);
    rdsrt_display_init(&display, 3);
    CHECK(shows(&display, NULL) && !display.view.name.is_shown && !display.view.item.is_shown);
    CHECK(rdsrt_display_slot(&display, &it, hi, 3) == RDSRT_BAD_ARGUMENT && shows(&display, NULL));
    CHECK(rdsrt_display_slot(&display, &it, hi, 4) == RDSRT_CHANGED && shows(&display, "HI"));
    CHECK(rdsrt_display_slot(&display, &it, announcement, 4) == RDSRT_OK);
    CHECK(rdsrt_display_slot(&display, &it, hi, 4) == RDSRT_OK);
    CHECK(rdsrt_display_slot(&display, &it, tags_of_hi, 4) == RDSRT_CHANGED && display.view.tag1.content_type == 4);
    CHECK(rdsrt_display_slot(&display, &it, NULL, 0) == RDSRT_OK);
    /* the receiver drops the text 3 slots after its last segment, and the display keeps it from then on */
    for (int slot = 0; slot < 3; slot++) {
        rdsrt_display_slot(&display, &it, NULL, 0);
        rdsrt_receiver_view(&it, &view);
        CHECK(!view.text.is_shown && !view.tag1.content_type);
        CHECK(shows(&display, "HI") && display.view.item.is_shown == 1 && display.view.tag1.length == 2);
    }
    CHECK(rdsrt_display_slot(&display, &it, NULL, 0) == RDSRT_CHANGED && shows(&display, NULL));
    CHECK(!display.view.item.is_shown && !display.view.tag1.content_type);
    CHECK(rdsrt_display_slot(&display, &it, NULL, 0) == RDSRT_OK);
    CHECK(rdsrt_display_slot(&display, &it, hi, 4) == RDSRT_CHANGED && shows(&display, "HI"));
    CHECK(rdsrt_display_slot(&display, &it, part, 4) == RDSRT_CHANGED && shows(&display, NULL));
    CHECK(rdsrt_display_slot(&display, &it, hi, 4) == RDSRT_CHANGED && shows(&display, "HI"));
    CHECK(rdsrt_display_slot(&display, &it, yo, 4) == RDSRT_CHANGED && shows(&display, "YO"));
    /* with 0 it keeps nothing */
    CHECK(rdsrt_receiver_init(&it, 0xC201, 2) == RDSRT_OK);
    rdsrt_display_init(&display, 0);
    CHECK(rdsrt_display_slot(&display, &it, hi, 4) == RDSRT_CHANGED && shows(&display, "HI"));
    CHECK(rdsrt_display_slot(&display, &it, NULL, 0) == RDSRT_OK && shows(&display, "HI"));
    CHECK(rdsrt_display_slot(&display, &it, NULL, 0) == RDSRT_CHANGED && shows(&display, NULL));
}

/* The names of content types and of codes; the bytes after a name are 0. */
static void names(void) {
    static const struct rdsrt_label empty = {{0}, 0};
    struct rdsrt_label it;
    rdsrt_type_name(4, &it);
    CHECK(it.length == 11 && strcmp(it.bytes, "ITEM.ARTIST") == 0);
    rdsrt_type_name(37, &it);
    CHECK(it.length == 25 && strcmp(it.bytes, "PROGRAMME.EDITORIAL_STAFF") == 0);
    for (unsigned type = 0; type < 256; type++) {
        rdsrt_type_name((uint8_t)type, &it);
        CHECK((it.length == 0) == (type > 63 || (type >= 54 && type <= 58)));
        CHECK(it.length == strlen(it.bytes) && (it.length > 0 || memcmp(&it, &empty, sizeof it) == 0));
    }
    rdsrt_code_name(RDSRT_HELD, &it);
    CHECK(strcmp(it.bytes, "RDSRT_HELD") == 0);
    rdsrt_code_name(RDSRT_FAULT_NOT_ONE_TEXT, &it);
    CHECK(strcmp(it.bytes, "RDSRT_FAULT_NOT_ONE_TEXT") == 0);
    static const uint32_t others[] = {RDSRT_OK, RDSRT_CHANGED, 15, 16, RDSRT_FAULT_TAG_OUTSIDE + 1, RDSRT_UNKNOWN};
    for (size_t i = 0; i < sizeof others / sizeof *others; i++) {
        rdsrt_code_name(others[i], &it);
        CHECK(memcmp(&it, &empty, sizeof it) == 0);
    }
}

/* An encoder of dwell 1 that has had its one slot of silence. */
static struct rdsrt_encoder station(void) {
    struct rdsrt_encoder it;
    uint16_t blocks[4] = {9, 9, 9, 9};
    CHECK(rdsrt_encoder_init(&it, 0xC201, 0, 32, 1, 0) == RDSRT_BAD_ARGUMENT);
    CHECK(rdsrt_encoder_init(&it, 0xC201, 0, 10, 0, 0) == RDSRT_BAD_ARGUMENT);
    CHECK(rdsrt_encoder_init(&it, 0xC201, 0, 10, 1, 1025) == RDSRT_BAD_ARGUMENT);
    CHECK(rdsrt_encoder_init(&it, 0xC201, 0, 10, 1, 0) == RDSRT_OK);
    struct rdsrt_reply early = rdsrt_encoder_set_text(&it, bytes("HI"), 2);
    CHECK(early.code == RDSRT_SILENT && early.number == 1);
    CHECK(rdsrt_encoder_tick(&it, 1, blocks) == RDSRT_OK && blocks[0] == 9);
    return it;
}

static void encoder(void) {
    struct rdsrt_encoder it = station();
    struct rdsrt_on_air air;
    struct rdsrt_wait wait;
    uint16_t blocks[4];
    CHECK(rdsrt_encoder_set_text(&it, bytes("HI"), 2).code == RDSRT_OK);
    CHECK(rdsrt_encoder_set_name(&it, bytes("POP"), 3).code == RDSRT_OK);
    struct rdsrt_reply held = rdsrt_encoder_set_text(&it, bytes("YO"), 2);
    CHECK(held.code == RDSRT_HELD && held.number == 2);
    struct rdsrt_reply bad = rdsrt_encoder_set_name(&it, bytes("POP\x01"), 4);
    CHECK(bad.code == RDSRT_BAD_BYTE && bad.number == 3);
    CHECK(rdsrt_encoder_set_name(&it, bytes("NINE BYTE"), 9).code == RDSRT_TOO_LONG);
    rdsrt_encoder_on_air(&it, &air);
    CHECK(air.text.is_shown && air.text.length == 2 && memcmp(air.text.bytes, "HI", 2) == 0);
    CHECK(air.name.is_shown && memcmp(air.name.bytes, "POP     ", 8) == 0);
    rdsrt_encoder_wait(&it, &wait);
    CHECK(wait.silent == 0 && wait.text == 2 && wait.name == 2);
    CHECK(rdsrt_encoder_tick(&it, 1, blocks) == RDSRT_SENT && memcmp(blocks, hi, sizeof hi) == 0);
}

/* 11A and 12A change places, in a group's own type and in a 3A */
static void tag_group(void) {
    static const uint16_t groups[][2] = {
        {0xB008, 0xC008}, {0xC008, 0xB008}, {0x3016, 0x3018}, {0x3018, 0x3016}, {0x2140, 0x2140}, {0xC808, 0xC808},
        {0x3816, 0x3816}, {0x3014, 0x3014}};
    for (size_t i = 0; i < sizeof groups / sizeof *groups; i++) {
        uint16_t blocks[4] = {0xC201, groups[i][0], 0x2006, 0x4BD7};
        CHECK(rdsrt_exchange_tag_group(12, blocks) == RDSRT_OK);
        CHECK(blocks[0] == 0xC201 && blocks[1] == groups[i][1] && blocks[2] == 0x2006 && blocks[3] == 0x4BD7);
        CHECK(rdsrt_exchange_tag_group(11, blocks) == RDSRT_OK && blocks[1] == groups[i][1]);
        CHECK(rdsrt_exchange_tag_group(10, blocks) == RDSRT_BAD_ARGUMENT && blocks[1] == groups[i][1]);
    }
}

static void tags_set(void) {
    struct rdsrt_encoder it = station();
    struct rdsrt_tags tags = {{4, 0, 3}, {0, 0, 0}, 1, 1};
    CHECK(rdsrt_encoder_set_tags(&it, &tags).code == RDSRT_NO_TEXT);
    CHECK(rdsrt_encoder_set_text(&it, bytes("HI"), 2).code == RDSRT_OK);
    CHECK(rdsrt_encoder_set_tags(&it, &tags).code == RDSRT_OUT_OF_TEXT_1);
    tags.tag1.length = 2;
    CHECK(rdsrt_encoder_set_tags(&it, &tags).code == RDSRT_OK);
    tags.tag2.content_type = 1;
    CHECK(rdsrt_encoder_set_tags(&it, &tags).code == RDSRT_BAD_TAGS);
    tags.tag2.length = 32;
    CHECK(rdsrt_encoder_set_tags(&it, &tags).code == RDSRT_OUT_OF_TEXT_2);
    tags.tag2.length = 33;
    CHECK(rdsrt_encoder_set_tags(&it, &tags).code == RDSRT_BAD_TAGS);
}

/* What an audit of so many slots answers to the last of these groups; in one slot before it nothing was sent. */
static uint32_t audited(uint16_t dwell, const uint16_t *first, const uint16_t *second, const uint16_t *third) {
    struct rdsrt_audit it;
    CHECK(rdsrt_audit_init(&it, 0xC201, dwell, 0) == RDSRT_OK);
    CHECK(rdsrt_audit_slot(&it, first, 2) == RDSRT_BAD_ARGUMENT);
    CHECK(rdsrt_audit_slot(&it, first, 4) == RDSRT_OK);
    if (second) CHECK(rdsrt_audit_slot(&it, second, 4) == RDSRT_OK);
    CHECK(rdsrt_audit_slot(&it, NULL, 0) == RDSRT_OK && rdsrt_audit_passed(&it) == 1);
    uint32_t code = rdsrt_audit_slot(&it, third, 4);
    CHECK(rdsrt_audit_slot(&it, NULL, 0) == code && rdsrt_audit_passed(&it) == (code == RDSRT_OK));
    return code;
}

/* A text follows with the flag of the one before, once that has been gone for the dwell: that passes, but the flag did
 * not turn. */
static void flags(void) {
    struct rdsrt_audit it;
    CHECK(rdsrt_audit_init(&it, 0xC201, 2, 0) == RDSRT_OK);
    CHECK(rdsrt_audit_slot(&it, hi, 4) == RDSRT_OK && rdsrt_audit_texts_turn_the_flag(&it) == 1);
    CHECK(rdsrt_audit_slot(&it, NULL, 0) == RDSRT_OK && rdsrt_audit_slot(&it, NULL, 0) == RDSRT_OK);
    CHECK(rdsrt_audit_slot(&it, changed_hi, 4) == RDSRT_OK && rdsrt_audit_passed(&it) == 1);
    CHECK(rdsrt_audit_texts_turn_the_flag(&it) == 0 && rdsrt_audit_names_turn_the_flag(&it) == 1);
}

/* A recording begins in the middle of a text: its tags may come at once. Tags before the first text segment are not
 * judged. */
static void recording(void) {
    const uint16_t *tags = tags_of_hi;
    struct rdsrt_audit it;
    CHECK(rdsrt_audit_init_running(&it, 0xC201, 0, 0) == RDSRT_BAD_ARGUMENT);
    CHECK(rdsrt_audit_init(&it, 0xC201, 8, 0) == RDSRT_OK);
    CHECK(rdsrt_audit_slot(&it, tags, 4) == RDSRT_FAULT_EARLY_TAG);
    CHECK(rdsrt_audit_init(&it, 0xC201, 8, 0) == RDSRT_OK);
    CHECK(rdsrt_audit_slot(&it, hi, 4) == RDSRT_OK && rdsrt_audit_slot(&it, tags, 4) == RDSRT_FAULT_EARLY_TAG);
    CHECK(rdsrt_audit_init_running(&it, 0xC201, 8, 0) == RDSRT_OK);
    CHECK(rdsrt_audit_slot(&it, tags, 4) == RDSRT_OK);
    CHECK(rdsrt_audit_slot(&it, hi, 4) == RDSRT_OK && rdsrt_audit_slot(&it, tags, 4) == RDSRT_OK);
    CHECK(rdsrt_audit_slot(&it, yo, 4) == RDSRT_OK && rdsrt_audit_slot(&it, tags, 4) == RDSRT_FAULT_EARLY_TAG);
    CHECK(rdsrt_audit_passed(&it) == 0);
}

/* With the flag for padding a segment behind the carriage return may have any bytes, and other ones later; the text up
 * to it may not change. */
static void padding(void) {
    static const uint16_t behind[4] = {0xC201, 0x2141, 0x0000, 0x0D0A};
    static const uint16_t others[4] = {0xC201, 0x2141, 0x5A5A, 0x2020};
    struct rdsrt_audit it;
    CHECK(rdsrt_audit_init_with(&it, 0xC201, 8, 0, 4) == RDSRT_BAD_ARGUMENT);
    CHECK(rdsrt_audit_init_with(&it, 0xC201, 0, 0, RDSRT_AUDIT_PADDED) == RDSRT_BAD_ARGUMENT);
    CHECK(rdsrt_audit_init_with(&it, 0xC201, 8, 0, 0) == RDSRT_OK);
    CHECK(rdsrt_audit_slot(&it, hi, 4) == RDSRT_OK && rdsrt_audit_slot(&it, behind, 4) == RDSRT_FAULT_NOT_ONE_TEXT);
    CHECK(rdsrt_audit_init_with(&it, 0xC201, 8, 0, RDSRT_AUDIT_PADDED) == RDSRT_OK);
    CHECK(rdsrt_audit_slot(&it, hi, 4) == RDSRT_OK && rdsrt_audit_slot(&it, behind, 4) == RDSRT_OK);
    CHECK(rdsrt_audit_slot(&it, others, 4) == RDSRT_OK && rdsrt_audit_texts(&it) == 1);
    CHECK(rdsrt_audit_slot(&it, tags_of_hi, 4) == RDSRT_FAULT_EARLY_TAG);
    CHECK(rdsrt_audit_init_with(&it, 0xC201, 8, 0, RDSRT_AUDIT_PADDED | RDSRT_AUDIT_RUNNING) == RDSRT_OK);
    CHECK(rdsrt_audit_slot(&it, behind, 4) == RDSRT_OK && rdsrt_audit_slot(&it, hi, 4) == RDSRT_OK);
    CHECK(rdsrt_audit_slot(&it, tags_of_hi, 4) == RDSRT_OK);
    CHECK(rdsrt_audit_slot(&it, changed_hi, 4) == RDSRT_FAULT_CHANGED);
}

static void audit(void) {
    static const uint16_t ended[4] = {0xC201, 0x2141, 0x4142, 0x0D20};
    static const uint16_t long_tag[4] = {0xC201, 0xB158, 0x8012, 0x0000};
    struct rdsrt_audit it;
    CHECK(rdsrt_audit_init(&it, 0xC201, 0, 0) == RDSRT_BAD_ARGUMENT);
    CHECK(rdsrt_audit_init(&it, 0xC201, 8, 1025) == RDSRT_BAD_ARGUMENT);
    CHECK(audited(8, hi, yo, yo) == RDSRT_OK);
    CHECK(audited(8, hi, NULL, changed_hi) == RDSRT_FAULT_CHANGED);
    CHECK(audited(8, hi, NULL, ended) == RDSRT_FAULT_NOT_ONE_TEXT);
    CHECK(audited(8, hi, yo, hi) == RDSRT_FAULT_EARLY_FLAG);
    CHECK(audited(8, hi, yo, tags_of_hi) == RDSRT_FAULT_EARLY_TAG);
    CHECK(audited(2, hi, NULL, long_tag) == RDSRT_FAULT_TAG_OUTSIDE);
}

/* The faults that a slot adds to the list, as the bits of a number: Changed is 1, EarlyFlag 2, NotOneText 4, EarlyTag 8
 * and TagOutside 16. */
static unsigned added(struct rdsrt_audit *it, const uint16_t *blocks) {
    struct rdsrt_faults found;
    CHECK(rdsrt_audit_all_faults(it, blocks, blocks ? 4 : 0, &found) == RDSRT_OK);
    return found.changed + 2u * found.early_flag + 4u * found.not_one_text + 8u * found.early_tag
        + 16u * found.tag_outside;
}

static void all_faults(void) {
    static const uint16_t past[4] = {0xC201, 0x2141, 0x4142, 0x0D20};
    static const uint16_t long_tag[4] = {0xC201, 0xB158, 0x8012, 0x0000};
    struct rdsrt_audit it;
    struct rdsrt_faults found = {7, 7, 7, 7, 7};
    CHECK(rdsrt_audit_init(&it, 0xC201, 8, 0) == RDSRT_OK);
    CHECK(rdsrt_audit_all_faults(&it, hi, 3, &found) == RDSRT_BAD_ARGUMENT && found.changed == 7
          && found.tag_outside == 7);
    CHECK(added(&it, hi) == 0 && added(&it, tags_of_hi) == 8 && added(&it, tags_of_hi) == 0);
    CHECK(added(&it, yo) == 0 && added(&it, hi) == 2 && added(&it, changed_hi) == 3 && added(&it, NULL) == 0);
    CHECK(rdsrt_audit_texts(&it) == 4 && rdsrt_audit_names(&it) == 0);
    CHECK(rdsrt_audit_passed(&it) == 0 && rdsrt_audit_slot(&it, NULL, 0) == RDSRT_FAULT_EARLY_TAG);
    CHECK(rdsrt_audit_init(&it, 0xC201, 2, 0) == RDSRT_OK);
    CHECK(added(&it, hi) == 0 && added(&it, NULL) == 0 && added(&it, long_tag) == 16 && added(&it, past) == 4);
    CHECK(rdsrt_audit_init_running(&it, 0xC201, 8, 0) == RDSRT_OK && added(&it, tags_of_hi) == 0);
    CHECK(added(&it, hi) == 0 && added(&it, tags_of_hi) == 0 && added(&it, yo) == 0 && added(&it, tags_of_hi) == 8);
}

static void times(void) {
    const uint64_t hour = 3600000000;
    /* 19 slots have 1,664,000 us */
    CHECK(rdsrt_slot_time(0) == 0);
    CHECK(rdsrt_slot_time(1) == 87578);
    CHECK(rdsrt_slot_time(19) == 1664000);
    CHECK(rdsrt_slot_time(UINT32_MAX) == 376148714677894);
    CHECK(rdsrt_lost_slots(5, 1664005, 0) == 18);
    CHECK(rdsrt_lost_slots(5, 1664006, 0) == 19);
    CHECK(rdsrt_lost_slots(0, 1684000, 20000) == 18);
    CHECK(rdsrt_lost_slots(0, 1684001, 20000) == 19);
    CHECK(rdsrt_lost_slots(7, 7, 20000) == 0);
    CHECK(rdsrt_lost_slots(7, 6, 20000) == RDSRT_UNKNOWN);
    CHECK(rdsrt_lost_slots(0, hour, 0) == 41105);
    CHECK(rdsrt_lost_slots(0, hour + 1, 0) == RDSRT_UNKNOWN);
    CHECK(rdsrt_lost_slots(0, UINT64_MAX, 0) == RDSRT_UNKNOWN);
    CHECK(rdsrt_lost_slots(0, 1, 87578) == 0);
    CHECK(rdsrt_lost_slots(0, 1, 87579) == RDSRT_UNKNOWN);
}

/* The text begins with this time, and with no other. */
static void is_time(const char *text, uint64_t wanted) {
    uint64_t time = ~wanted;
    CHECK(rdsrt_time_in(bytes(text), strlen(text), &time) == RDSRT_OK && time == wanted);
}

static void is_no_time(const char *text) {
    uint64_t time = 7;
    CHECK(rdsrt_time_in(bytes(text), strlen(text), &time) == RDSRT_UNKNOWN && time == 7);
}

static void times_of_lines(void) {
    const uint8_t seconds[] = "12.5 x", zone[] = "1970-01-01T01:00:00.25+01:00", none[] = "soon";
    uint8_t late[45] = "12.0000000000000000000000000000000000000000";
    uint64_t time = 7;
    CHECK(rdsrt_time_in(seconds, 6, &time) == RDSRT_OK && time == 12500000);
    /* 719,528 days of 86,400 s lie between the beginnings of the years 0 and 1970 */
    CHECK(rdsrt_time_in(zone, sizeof zone - 1, &time) == RDSRT_OK && time == UINT64_C(719528) * 86400000000 + 250000);
    CHECK(rdsrt_time_in(none, 4, &time) == RDSRT_UNKNOWN && time == UINT64_C(719528) * 86400000000 + 250000);
    CHECK(rdsrt_time_in(NULL, 0, &time) == RDSRT_UNKNOWN);
    CHECK(rdsrt_time_in(late, 40, &time) == RDSRT_OK && time == 12000000);
    /* one digit more, and a space or another byte after the 40 */
    CHECK(rdsrt_time_in(late, 41, &time) == RDSRT_UNKNOWN);
    late[40] = ' ';
    CHECK(rdsrt_time_in(late, 45, &time) == RDSRT_OK && time == 12000000);
    late[40] = 'x';
    CHECK(rdsrt_time_in(late, 41, &time) == RDSRT_UNKNOWN);
    late[39] = 'x';
    CHECK(rdsrt_time_in(late, 41, &time) == RDSRT_UNKNOWN);
    /* 38 spaces, and a number that ends within the 40 bytes or not */
    is_time("                                      12", 12000000);
    is_no_time("                                      1234");
    /* 07:58:12.08 is 28,692.08 s after midnight, and 00:00:01.25 of 1970-01-01 is 719,528 days and 1.25 s */
    is_time("07:58:12.08", UINT64_C(28692080000));
    is_time("  \t[07:58:12,080]\t57", UINT64_C(28692080000));
    is_time("1970-01-01 00:00:01,250", UINT64_C(719528) * 86400000000 + 1250000);
    is_time("[@1970/01/01 00:00:01.25] x", UINT64_C(719528) * 86400000000 + 1250000);
    is_time("1717228692080", UINT64_C(1717228692080000));
    is_time("171722869208", UINT64_C(171722869208000000));
    is_no_time("07:58");
    is_no_time("07:58:12Z");
    is_no_time("24:00:00");
    is_no_time("12,5");
    is_no_time("17172286920800");
    is_no_time("1717228692080.5");
    is_no_time("[12.5");
    is_no_time("12.5]");
    is_no_time("[ 12.5]");
}

static void texts(void) {
    uint8_t utf8[8], text[4];
    size_t count = 77;
    CHECK(rdsrt_text_to_utf8(bytes("Caf\x82"), 4, utf8, sizeof utf8, &count) == RDSRT_OK);
    CHECK(count == 5 && memcmp(utf8, "Caf\xC3\xA9", 5) == 0);
    CHECK(rdsrt_text_from_utf8(utf8, 5, text, sizeof text, &count) == RDSRT_OK);
    CHECK(count == 4 && memcmp(text, "Caf\x82", 4) == 0);
    CHECK(rdsrt_text_to_utf8(bytes("\x01\x02\x03"), 3, utf8, sizeof utf8, &count) == RDSRT_NO_ROOM && count == 12);
    /* what a log has escapes for */
    uint8_t shown[8];
    CHECK(rdsrt_text_to_display(bytes("\"\x8D\\\x0D"), 4, shown, sizeof shown, &count) == RDSRT_OK);
    CHECK(count == 7 && memcmp(shown, "\"\xC3\x9F\\\xEF\xBF\xBD", 7) == 0);
    CHECK(rdsrt_text_to_display(bytes("\xA9\xA9\xA9"), 3, shown, sizeof shown, &count) == RDSRT_NO_ROOM && count == 9);
    CHECK(memcmp(shown, "\"\xC3\x9F\\\xEF\xBF\xBD", 7) == 0);
    CHECK(rdsrt_text_to_display(NULL, 0, NULL, 0, &count) == RDSRT_OK && count == 0);
    /* the calls write one size_t, and leave the next */
    size_t counts[2] = {77, 99};
    CHECK(rdsrt_text_to_utf8(bytes("HI"), 2, utf8, sizeof utf8, counts) == RDSRT_OK && counts[0] == 2 && counts[1] == 99);
    CHECK(rdsrt_text_from_utf8(bytes("A"), 1, text, sizeof text, counts) == RDSRT_OK && counts[0] == 1 && counts[1] == 99);
    CHECK(rdsrt_text_to_display(bytes("HI"), 2, utf8, sizeof utf8, counts) == RDSRT_OK);
    CHECK(counts[0] == 2 && counts[1] == 99);
    count = 77;
    uint8_t spaces[65];
    memset(spaces, ' ', sizeof spaces);
    CHECK(rdsrt_text_to_utf8(spaces, sizeof spaces, utf8, sizeof utf8, &count) == RDSRT_TOO_LONG && count == 77);
    CHECK(rdsrt_text_to_display(spaces, sizeof spaces, utf8, sizeof utf8, &count) == RDSRT_TOO_LONG && count == 77);
    CHECK(rdsrt_text_from_utf8(bytes("\xFF"), 1, text, sizeof text, &count) == RDSRT_NOT_UTF8 && count == 77);
    CHECK(rdsrt_text_from_utf8(bytes("abcde"), 5, text, sizeof text, &count) == RDSRT_NO_ROOM && count == 77);
    CHECK(rdsrt_text_from_utf8(bytes("ab\\y"), 4, text, sizeof text, &count) == RDSRT_BAD_ESCAPE && count == 2);
    CHECK(rdsrt_text_from_utf8(bytes("a~"), 2, text, sizeof text, &count) == RDSRT_NO_CHARACTER && count == 1);
}

/* No call notices a struct that no _init made, here one of zeros. */
static void never_initialised(void) {
    struct rdsrt_receiver it;
    struct rdsrt_audit judge;
    struct rdsrt_view view;
    memset(&it, 0, sizeof it);
    CHECK(rdsrt_receiver_slot(&it, hi, 4) == RDSRT_OK);
    rdsrt_receiver_view(&it, &view);
    CHECK(!view.text.is_shown && !view.name.is_shown && !view.item.is_shown && !view.tag1.content_type);
    memset(&judge, 0, sizeof judge);
    CHECK(rdsrt_audit_slot(&judge, hi, 4) == RDSRT_OK && rdsrt_audit_slot(&judge, changed_hi, 4) == RDSRT_OK);
    CHECK(rdsrt_audit_passed(&judge) == 1);
}

int main(void) {
    version();
    never_initialised();
    receiver();
    tags_shown();
    confirming();
    held();
    display();
    names();
    encoder();
    tag_group();
    tags_set();
    audit();
    all_faults();
    recording();
    padding();
    flags();
    times();
    times_of_lines();
    texts();
    puts("ok");
    return 0;
}
