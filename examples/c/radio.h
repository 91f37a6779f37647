/* A receiver and its display. It gets groups with times, and counts the slots itself. Each slot is one call of the
 * library, also if no group came in it. So the receiver drops a text one dwell after its last part, even if no more
 * groups come. The display then keeps the text for some seconds (KEEPING in rdsrt.h).
 *
 * Without a window give it no group in which bits were corrected. With a window of W slots the groups may have
 * corrected bits: the receiver shows only what it received twice within W slots.
 *
 * rdsrt_lost_slots counts the slots from one group to the next. If the delays of the groups vary by less than 67 ms (a
 * slot less GRAIN), it never counts too few. */
#ifndef RADIO_H
#define RADIO_H

#include <rdsrt.h>

#include <stdbool.h>
#include <stddef.h>
#include <string.h>

#define GRAIN 20000 /* how far the times can be off, in microseconds */

struct radio {
    struct rdsrt_receiver receiver;
    struct rdsrt_display display; /* its `view` has the text, the name and the tags that are shown */
    /* Yours: shows `display.view`, which may have changed. `was` is the view before. */
    void (*show)(const struct radio *radio, const struct rdsrt_view *was);
    uint64_t slot;          /* of the next call */
    uint64_t last, latest;  /* the time of the last group, and the latest time, in microseconds */
    uint32_t lost;          /* the calls without a group since the last group */
    uint32_t all;           /* after so many lost slots nothing is shown or held */
    bool began;             /* there was a time */
};

/* Makes a radio for the programme `pi`. The window is 0 if no bits are corrected. keep_seconds: for how long the display
 * keeps a text that the receiver dropped, at most 5739; 60 is good for what a listener sees. Call it again after a switch
 * to another frequency. Returns false if a number is out of range. */
static inline bool radio_init(struct radio *radio, uint16_t pi, uint16_t dwell, uint16_t window, uint16_t keep_seconds,
                              void (*show)(const struct radio *, const struct rdsrt_view *)) {
    const uint32_t keep = keep_seconds * UINT32_C(2375) / 208; /* 1187.5 bits a second, 104 bits a slot */
    if (keep > 0xFFFF) return false;
    memset(radio, 0, sizeof *radio);
    radio->all = (dwell > window ? dwell : window) + keep;
    radio->show = show;
    rdsrt_display_init(&radio->display, (uint16_t)keep);
    if (window) return rdsrt_receiver_init_confirming(&radio->receiver, pi, dwell, window) == RDSRT_OK;
    return rdsrt_receiver_init(&radio->receiver, pi, dwell) == RDSRT_OK;
}

/* One slot: the four blocks that came, or NULL. */
static inline void end_slot(struct radio *radio, const uint16_t *blocks) {
    const struct rdsrt_view was = radio->display.view;
    if (rdsrt_display_slot(&radio->display, &radio->receiver, blocks, blocks ? 4 : 0) == RDSRT_CHANGED) {
        radio->show(radio, &was);
    }
    radio->slot++;
}

/* Begins a new count of slots at this time. */
static inline void begin_at(struct radio *radio, uint64_t now) {
    radio->began = true;
    radio->last = radio->latest = now;
    radio->lost = 0;
}

/* Returns whether the time went back, or on by more than an hour. Then nobody knows how many slots passed. */
static inline bool is_break(const struct radio *radio, uint64_t now) {
    if (now < radio->latest) return now < radio->last || radio->latest - now > GRAIN;
    return rdsrt_lost_slots(radio->last, now, GRAIN) == RDSRT_UNKNOWN;
}

/* No group came up to this time: makes the calls of the slots that ended. After a break it makes so many that
 * nothing from before is shown or held. */
static inline void radio_time(struct radio *radio, uint64_t now) {
    uint32_t lost;
    if (!radio->began) begin_at(radio, now);
    if (is_break(radio, now)) {
        for (lost = 0; lost < radio->all; lost++) end_slot(radio, NULL);
        begin_at(radio, now);
    }
    lost = rdsrt_lost_slots(radio->last, now, GRAIN);
    for (; radio->lost < lost; radio->lost++) end_slot(radio, NULL);
    if (now > radio->latest) radio->latest = now;
}

/* A group was complete at this time. */
static inline void radio_group(struct radio *radio, uint64_t now, const uint16_t blocks[4]) {
    radio_time(radio, now);
    end_slot(radio, blocks);
    begin_at(radio, now);
}

#endif
