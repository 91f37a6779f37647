/* Plays a station over white noise, with a decoder that corrects bursts of wrong bits: how many wrong texts do two kinds of
 * receivers of the C library show, and when do they show the right one?
 *
 * usage: noise DECIBELS BITS HOURS SEED [fades|blocks|groups]
 *
 * DECIBELS is the energy of a bit over the density of the noise, and BITS the longest burst that is corrected in a block.
 * fades: the signal is 6 dB weaker for 20 to 340 slots, after 30 to 400 slots. blocks: a block that is not decoded is
 * replaced by the block at its place in the last group. groups: a group that is not decoded is replaced by the last one.
 *
 * Biphase symbols are decided one by one, and a bit says whether a symbol differs from the one before. The station is an
 * encoder with M = 128. It sets a text of 64 characters each 4000 slots. One slot in two is free, so a segment of the text
 * goes each four slots, and its round is 64 slots. One receiver has M = 128 and no window, and the other one M = 64 and
 * W = 65. A text that is shown is wrong if it was on air in none of the last 128 slots.
 *
 * Prints one line of numbers: slots, received groups, wrong groups, and for each receiver wrong texts and the mean slots
 * from the set of a text to its display. */
#include <math.h>
#include <rdsrt.h>
#include <stdio.h>
#include <stdlib.h>
#include <string.h>

enum { PI = 0xC201, TEXT = 64, SPACING = 128, EVERY = 4000, ONE_IN = 2, BITS = 26, CHECK = 10, GENERATOR = 0x5B9 };

/* A shift register with a period of 2^128 - 1 (xorshift128+). */
static uint64_t seeds[2];
static uint64_t chosen(void) {
    uint64_t a = seeds[0], b = seeds[1];
    seeds[0] = b;
    a ^= a << 23;
    seeds[1] = a ^ b ^ (a >> 18) ^ (b >> 5);
    return seeds[1] + b;
}

/* ---- The channel and the decoder ---- */

static struct {
    double decibels, log_right;             /* log_right: of the chance of a right symbol */
    long right;                             /* right symbols before the next wrong one */
    long until;                             /* the slot in which a fade begins or ends */
    int is_weak;
    int was_wrong;
    uint32_t error[1 << CHECK];             /* of each syndrome that is corrected */
    char corrects[1 << CHECK];
} channel;

static uint32_t syndrome(uint32_t block) {
    for (int at = BITS - 1; at >= CHECK; at--)
        if (block >> at & 1) block ^= (uint32_t)GENERATOR << (at - CHECK);
    return block;
}

static void corrects_bursts(int longest) {
    channel.corrects[0] = 1;
    for (int length = 1; length <= longest; length++) {
        int inner = length > 2 ? 1 << (length - 2) : 1;
        for (int in = 0; in < inner; in++) {
            uint32_t burst = length == 1 ? 1 : 1u << (length - 1) | 1u | (uint32_t)in << 1;
            for (int at = 0; at + length <= BITS; at++) {
                channel.corrects[syndrome(burst << at)] = 1;
                channel.error[syndrome(burst << at)] = burst << at;
            }
        }
    }
}

static void draw_right(void) {
    double any = (double)((chosen() >> 11) + 1) * 0x1p-53;
    channel.right = (long)(log(any) / channel.log_right);
}

static void set_decibels(double decibels) {
    channel.log_right = log1p(-erfc(sqrt(pow(10, decibels / 10))) / 2);
    draw_right();
}

/* Begins or ends a fade in its slot. */
static void fade(long slot) {
    if (slot < channel.until) return;
    channel.is_weak = slot > 0 && !channel.is_weak;
    channel.until = slot + (long)(channel.is_weak ? 20 + chosen() % 321 : 30 + chosen() % 371);
    set_decibels(channel.decibels - (channel.is_weak ? 6 : 0));
}

static int next_is_wrong(void) {
    if (channel.right-- > 0) return 0;
    draw_right();
    return 1;
}

/* Sends a block. Returns whether one was decoded, which may be a wrong one. */
static int send(uint16_t *word) {
    uint32_t wrong = 0;
    for (int at = BITS - 1; at >= 0; at--) {
        int is_wrong = next_is_wrong();
        if (is_wrong != channel.was_wrong) wrong |= 1u << at;
        channel.was_wrong = is_wrong;
    }
    uint32_t found = syndrome(wrong);
    *word ^= (uint16_t)((wrong ^ channel.error[found]) >> CHECK);
    return channel.corrects[found];
}

/* ---- The texts ---- */

/* The text on air, the one before, and when the one on air was set. */
static struct {
    uint8_t now[TEXT], before[TEXT];
    long since;
} on_air = {.since = -SPACING};

static void set_text(struct rdsrt_encoder *encoder, long slot) {
    memcpy(on_air.before, on_air.now, TEXT);
    for (int at = 0; at < TEXT; at++) on_air.now[at] = (uint8_t)('A' + chosen() % 26);
    on_air.since = slot;
    if (rdsrt_encoder_set_text(encoder, on_air.now, TEXT).code != RDSRT_OK) exit(1);
}

/* What a receiver showed so far. */
struct display {
    uint8_t shown[TEXT];
    int is_wrong, is_right;
    long wrong, right, slots;
};

static void look(struct display *it, const struct rdsrt_view *view, long slot) {
    const struct rdsrt_text *text = &view->text;
    int is_whole = text->is_shown && text->length == TEXT;
    int is_now = is_whole && memcmp(text->bytes, on_air.now, TEXT) == 0;
    int is_before = is_whole && slot < on_air.since + SPACING && memcmp(text->bytes, on_air.before, TEXT) == 0;
    int is_wrong = text->is_shown && !is_now && !is_before;
    if (is_wrong && !(it->is_wrong && memcmp(text->bytes, it->shown, TEXT) == 0)) it->wrong++;
    if (is_now && !it->is_right) {
        it->right++;
        it->slots += slot - on_air.since + 1;
    }
    it->is_right = it->is_right || is_now;
    it->is_wrong = is_wrong;
    memcpy(it->shown, text->bytes, TEXT);
}

static double mean_slots(const struct display *it) {
    return it->right ? (double)it->slots / (double)it->right : 0;
}

/* The group of this slot: the encoder's, or in a slot that it has not one of the station's name. */
static void group_of(struct rdsrt_encoder *encoder, long slot, uint16_t blocks[4]) {
    if (rdsrt_encoder_tick(encoder, slot % ONE_IN == 0, blocks) == RDSRT_SENT) return;
    uint16_t name[4] = {PI, 0x0548, 0xE20F, 0x4142};
    memcpy(blocks, name, sizeof name);
}

int main(int count, char **words) {
    if (count != 5 && count != 6) return 2;
    double hours = atof(words[3]);
    const char *how = count == 6 ? words[5] : "";
    int has_fades = !strcmp(how, "fades"), old_blocks = !strcmp(how, "blocks"), old_groups = !strcmp(how, "groups");
    channel.decibels = atof(words[1]);
    corrects_bursts(atoi(words[2]));
    seeds[0] = (uint64_t)atol(words[4]) * 7919 + 1;
    seeds[1] = UINT64_C(88172645463325252);
    set_decibels(channel.decibels);
    struct rdsrt_encoder encoder;
    struct rdsrt_receiver once, twice;
    struct display of_once = {.is_right = 0}, of_twice = {.is_right = 0};
    struct rdsrt_view view;
    rdsrt_encoder_init(&encoder, PI, 0, 10, SPACING, 0);
    rdsrt_receiver_init(&once, PI, SPACING);
    rdsrt_receiver_init_confirming(&twice, PI, 64, 65);
    uint16_t last[4] = {0};
    long slots = (long)(hours * 3.6e12 / (double)rdsrt_slot_time(1000000) * 1000), received = 0, wrong = 0;
    for (long slot = 0; slot < slots; slot++) {
        uint16_t sent[4], blocks[4];
        if (slot % EVERY == SPACING) {
            set_text(&encoder, slot);
            of_once.is_right = of_twice.is_right = 0;
        }
        group_of(&encoder, slot, sent);
        memcpy(blocks, sent, sizeof sent);
        if (has_fades) fade(slot);
        int is_whole = 1;
        for (int at = 0; at < 4; at++) {
            int is_decoded = send(&blocks[at]);
            if (!is_decoded && old_blocks) blocks[at] = last[at];
            is_whole &= is_decoded || old_blocks;
        }
        if (!is_whole && old_groups) memcpy(blocks, last, sizeof last);
        is_whole = (is_whole || old_groups) && blocks[0] == PI;
        if (is_whole) memcpy(last, blocks, sizeof last);
        received += is_whole;
        wrong += is_whole && memcmp(blocks, sent, sizeof sent) != 0;
        size_t words = is_whole ? 4 : 0;
        if (rdsrt_receiver_slot(&once, blocks, words) == RDSRT_CHANGED) {
            rdsrt_receiver_view(&once, &view);
            look(&of_once, &view, slot);
        }
        if (rdsrt_receiver_slot(&twice, blocks, words) == RDSRT_CHANGED) {
            rdsrt_receiver_view(&twice, &view);
            look(&of_twice, &view, slot);
        }
    }
    printf("%ld %ld %ld", slots, received, wrong);
    printf(" %ld %.0f", of_once.wrong, mean_slots(&of_once));
    printf(" %ld %.0f\n", of_twice.wrong, mean_slots(&of_twice));
    return 0;
}
