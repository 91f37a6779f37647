/* rdsrt.h: receivers, encoders and audits of RDS texts (IEC 62106), for C11 and C++17 on Linux (x86-64, 64-bit Arm).
 *
 * FM stations send RadioText (up to 64 characters), a name (8 characters) and the tags of RadioText Plus (RT+) in groups
 * of four blocks of 16 bits. Name: the programme type name (PTYN, group 10A); the station name (PS) is not handled.
 *
 * A SLOT is the time of one group: 104 bits at 1187.5 bit/s, about 88 ms. All times of this library are slots, and you
 * count them: make one call for each slot, lost slots too.
 *
 * A receiver:
 *
 *     struct rdsrt_receiver receiver;
 *     struct rdsrt_view view;
 *     rdsrt_receiver_init(&receiver, 0xC201, RDSRT_DEFAULT_DWELL);
 *     for (;;) {
 *         uint16_t blocks[4];
 *         bool all = next_group(blocks);
 *         if (rdsrt_receiver_slot(&receiver, all ? blocks : NULL, all ? 4 : 0) == RDSRT_CHANGED) {
 *             rdsrt_receiver_view(&receiver, &view);
 *             if (view.text.is_shown) show(view.text.bytes, view.text.length);
 *             else show_nothing();
 *         }
 *     }
 *
 * next_group and the two show functions are yours. next_group returns once in each slot, every 88 ms: false if a block
 * was lost or if no group came. It writes the blocks without their check bits. rdsrt_text_to_display makes UTF-8 for
 * show. examples/c/tuner.c has the loop behind a tuner chip that interrupts for each group. `./install PREFIX` puts it,
 * DEFINITIONS.md and FORMATS.md into PREFIX/share/doc/rdsrt.
 *
 * For example, C201 2140 4849 0D20 is a group of programme C201 with the whole text "HI". After one call with it the
 * view shows HI.
 *
 * BLOCKS. A block is a number: its first bit on the air is bit 15. A tuner chip that gives two bytes, the high byte first,
 * gives high << 8 | low.
 *
 * STATIONS. A receiver takes the groups of one PI, those whose first block is that number, and ages in all other slots. If
 * you do not know the PI, take the first block of two groups that agree. When you tune to another PI, call _init again,
 * of the receiver and of its display.
 *
 * THE DWELL. A receiver drops a text if no part of it arrived for M slots, its dwell. The program rdsrt has M = 128 by
 * default, about 11 s. The station needs the same M or a larger one, and spaces its texts by M slots. Then no text or
 * name that the receiver shows is a mix of two, whichever groups it lost, and each was on air within the last M slots.
 * If groups may arrive up to K slots late, give K as `late` to the encoder (and to an audit): it spaces its texts by M
 * + K.
 * The encoder here is silent for M + K slots after a start, and keeps each text for 2 (M + K), so that tags fit.
 * A receiver works with any station. If the station keeps no dwell, texts can be mixed, as in every other receiver.
 *
 * KEEPING. In a loss of M slots or more, such as a long tunnel, a receiver drops the text. A display that keeps
 * (rdsrt_display_slot) shows it for up to N more slots. A text that was whole never becomes a mix, only older: it was on
 * air within the last M + K + N slots. Take N = 685 (60 s) for what a listener sees. A program that acts on tags asks
 * the receiver (rdsrt_receiver_view): a kept tag can be of an item that is over.
 *
 * BITS. The guarantee needs groups that are whole and unchanged. Give a receiver no group in which your decoder
 * corrected bits. If it corrects bits, make the receiver with rdsrt_receiver_init_confirming. It then shows only what it
 * received twice within W slots, its window. Its guarantee needs that no segment and no pair of tags is wrong in the same
 * way twice within W slots. The station has to space its texts by M + K + W - 1 slots. For example, for a station with M
 * = 128 and groups that come on time, give the receiver M = 64 and W = 65.
 *
 * MEMORY. You hold each struct. It has no pointers: copy it, move it, save it, drop it. Its saved bytes belong to one
 * RDSRT_ABI and one byte order. No call allocates, waits, prints, keeps a pointer or has a state of its own. Threads may
 * call at the same time on different structs.
 *
 * AFTER A LOSS OF POWER. A saved receiver does not know how long the pause was. End as many slots without a group as the
 * pause had, or more. If you do not know, call _init. A receiver that leaves out the pause can show a mix. Save a display
 * and its receiver together, and end these slots with rdsrt_display_slot, or call both _init. For an encoder
 * call _init: the guarantee holds for restarts. To go on without the silence, save the struct after each accepted text and
 * name, and before the next rdsrt_encoder_tick: first save, then send. This is tested, and not proved. Do so only if you
 * set no tags: after a pause of M + K slots saved tags can come too early.
 *
 * LINK with -lrdsrt. pkg-config knows the library as rdsrt. CMake finds it by find_package(rdsrt), as rdsrt::rdsrt and
 * rdsrt::static. It needs memcpy, memset, memmove and memcmp at most.
 *
 * STACK. A call takes at most this many bytes of stack, the first number on x86-64, the second on 64-bit Arm. The numbers
 * come from the machine code of the library (tests/stack), rounded up for other versions of the compiler. The stack of
 * memcpy and memset comes on top.
 *
 *     rdsrt_version                     32   32    rdsrt_audit_init                  32   32
 *     rdsrt_receiver_init               64   32    rdsrt_audit_init_running          32   32
 *     rdsrt_receiver_init_confirming    32   32    rdsrt_audit_init_with             32   32
 *     rdsrt_receiver_slot              256  192    rdsrt_audit_slot                 352  352
 *     rdsrt_receiver_view              224  192    rdsrt_audit_all_faults           384  416
 *     rdsrt_receiver_held               32   32    rdsrt_audit_passed                32   32
 *     rdsrt_display_init                32   32    rdsrt_display_slot               288  288
 *     rdsrt_slot_time                   32   32    rdsrt_audit_texts                 32   32
 *     rdsrt_time_in                    288  288    rdsrt_audit_names                 32   32
 *     rdsrt_lost_slots                  32   32    rdsrt_audit_texts_turn_the_flag   32   32
 *     rdsrt_encoder_init                32   32    rdsrt_audit_names_turn_the_flag   32   32
 *     rdsrt_encoder_set_text           256  288    rdsrt_text_to_display            320  320
 *     rdsrt_encoder_set_name            64   64    rdsrt_text_to_utf8               384  384
 *     rdsrt_encoder_set_tags            64   32    rdsrt_text_from_utf8             160  160
 *     rdsrt_encoder_tick                64   32    rdsrt_type_name                   96   96
 *     rdsrt_encoder_on_air             128  128    rdsrt_code_name                   96   96
 *     rdsrt_encoder_wait                32   32    rdsrt_exchange_tag_group          32   32
 *
 * YOU PROMISE for every call:
 *  - You call _init first. No call notices that you did not: a struct of zeros has PI 0000, so it shows nothing of your
 *    station, and its audit passes.
 *  - a pointer to a struct, to a count or to blocks[4] is not NULL, is aligned, and points to all of it;
 *  - a pointer with a number beside it points to as many elements; if that number is 0, the pointer may be NULL;
 *  - the call's output overlaps no other argument, and no other thread touches it during the call.
 *
 * WE PROVE for every call (law: rds_ffi rdsrt_receiver_slot, clauses few, kept, stands):
 *  - Whatever bytes a struct or an array holds, the call is memory-safe and returns, and it returns no length or place
 *    beyond its buffer (a display can keep one that you wrote into it). It returns only the codes that its comment lists.
 *    An error leaves every struct as it was.
 *  - If _init made the struct and only these calls wrote it since, every answer is the one of DEFINITIONS.md for
 *    all calls since the _init. If anybody else wrote it, we promise nothing about texts, groups and verdicts.
 */
#ifndef RDSRT_H
#define RDSRT_H

#include <stddef.h>
#include <stdint.h>

#ifdef __cplusplus
extern "C" {
#endif

/* The number of this interface. It changes with every size, offset, code or call below. */
#define RDSRT_ABI 10

/* The version of this header. rdsrt_version() returns the version of the linked library. */
#define RDSRT_VERSION_MAJOR 0
#define RDSRT_VERSION_MINOR 2
#define RDSRT_VERSION_PATCH 0

/* The default dwell of the program rdsrt, in slots: about 11 s. */
#define RDSRT_DEFAULT_DWELL 128

/* What rdsrt_lost_slots returns if nobody knows how many slots were lost. */
#define RDSRT_UNKNOWN UINT32_C(4294967295)

struct rdsrt_version { uint32_t abi, major, minor, patch; };

/* Returns the version of the linked library. `abi` should be RDSRT_ABI. */
struct rdsrt_version rdsrt_version(void);

/* The codes that calls return. RDSRT_OK, RDSRT_CHANGED, RDSRT_SENT and the faults of an audit are no
 * errors. */
enum rdsrt_code {
    RDSRT_OK = 0,                  /* done; receiver, display: the view is the same; tick: nothing to send */
    RDSRT_CHANGED = 1,             /* receiver, display: the view may have changed */
    RDSRT_SENT = 1,                /* tick: there is a group to send */
    RDSRT_BAD_ARGUMENT = 2,        /* a number is out of range */
    RDSRT_SILENT = 3,              /* refused: the encoder is silent after its start, for `number` more slots */
    RDSRT_HELD = 4,                /* refused: the text or name before holds it back, for `number` more slots */
    RDSRT_NO_TEXT = 5,             /* refused: no text is on air */
    RDSRT_OUT_OF_TEXT_1 = 6,       /* refused: the first tag ends past the end of the text */
    RDSRT_OUT_OF_TEXT_2 = 7,       /* refused: the second tag ends past the end of the text, and the first does not */
    RDSRT_TOO_LONG = 8,            /* more than 64 bytes in a text, or 8 in a name */
    RDSRT_BAD_BYTE = 9,            /* the byte at place `number` is the first invalid one */
    RDSRT_BAD_TAGS = 10,           /* the numbers are not valid tags */
    RDSRT_NOT_UTF8 = 11,           /* the bytes are not UTF-8 */
    RDSRT_BAD_ESCAPE = 12,         /* the backslash at byte *count does not begin an escape \xHH */
    RDSRT_NO_CHARACTER = 13,       /* the character at byte *count is not in the RDS table */
    RDSRT_NO_ROOM = 14,            /* the output has more than `room` bytes */
    /* The faults of an audit, each with its cure. Names (PTYN) have the first three faults too. */
    /* A text changed without a flip of the A/B flag. Flip the flag with every change, even of one word. */
    RDSRT_FAULT_CHANGED = 17,
    /* The segments fit no text: a forbidden control character, a character other than a space after the carriage
     * return, or a segment past it. Send printable characters, end the text with one carriage return, fill its segment
     * with spaces, and send no segment past it. */
    RDSRT_FAULT_NOT_ONE_TEXT = 18,
    /* A text reused the A/B flag less than M + K slots after the last group of the text before the previous one. Keep
     * each text on air for at least M + K slots, and flip the flag only for a new text. */
    RDSRT_FAULT_EARLY_FLAG = 19,
    /* RT+ tags came before any text, or less than M + K slots after their text started. Send the first tags M + K slots
     * after the start of their text. */
    RDSRT_FAULT_EARLY_TAG = 20,
    /* An RT+ tag ends past the end of its text. Count the start from 0, send the number of characters less one as the
     * length, and set the tags after their text. */
    RDSRT_FAULT_TAG_OUTSIDE = 21
};

/* A receiver, an encoder and an audit. Only the library reads and writes the numbers in them. */
struct rdsrt_receiver { uint32_t own_[66]; };
struct rdsrt_encoder { uint32_t own_[29]; };
struct rdsrt_audit { uint64_t own_[39]; };

/* The faults that a slot adds to the list of all faults: 1 for each of them, else 0 (RDSRT_FAULT_.. has their
 * meaning). */
struct rdsrt_faults { uint8_t changed, early_flag, not_one_text, early_tag, tag_outside; };

/* A text: the first `length` bytes, 0 to 64, in the RDS character table. is_shown is 1 if there is a text (length 0 is
 * the empty text), else 0. */
struct rdsrt_text { uint8_t bytes[64]; uint8_t length, is_shown; };

/* A name: eight bytes of the same table, padded with spaces. is_shown is 1 if there is one, else 0. */
struct rdsrt_name { uint8_t bytes[8]; uint8_t is_shown; };

/* The item toggle and item running bits of RT+, each 0 or 1. is_shown is 1 if there are any, else 0. */
struct rdsrt_item { uint8_t is_shown, toggle, running; };

/* A piece of the text: `length` bytes from place `start` on (the first byte is place 0), and its RT+ content type: 1
 * title, 2 album, 3 track number, 4 artist, 5 composition, 6 movement, 7 conductor, 8 composer, 9 band, 10 comment, 11
 * genre, up to 63. If there is no tag, all three are 0. */
struct rdsrt_tag { uint8_t content_type, start, length; };

/* Everything that a receiver shows. Tags lie in the text: start + length <= text.length. */
struct rdsrt_view {
    struct rdsrt_text text;
    struct rdsrt_name name;
    struct rdsrt_item item;
    struct rdsrt_tag tag1, tag2;
};

/* A display that keeps the last text and the last name of its receiver. `view` is what it shows. Only the library reads
 * and writes the other numbers. */
struct rdsrt_display { struct rdsrt_view view; uint16_t own_[5]; };

/* The text and the name that an encoder has on air. */
struct rdsrt_on_air { struct rdsrt_text text; struct rdsrt_name name; };

/* Two tags for the text on air. toggle and running: 0, or any other number for 1. In each tag content_type and start
 * are at most 63, and length at most 64 (tag2: 32). For no tag, all three are 0; else content_type and length are not
 * 0. */
struct rdsrt_tags { struct rdsrt_tag tag1, tag2; uint8_t toggle, running; };

/* The reply to a set. number is the one of RDSRT_SILENT, RDSRT_HELD and RDSRT_BAD_BYTE; else it is 0. */
struct rdsrt_reply { uint32_t code, number; };

/* For how many more slots an encoder refuses every set (silent), a text, a name; 0 if it does not. */
struct rdsrt_wait { uint32_t silent, text, name; };

/* ---- Receiver ---- */

/* Makes a receiver of the programme `pi` that has received nothing yet. dwell: M, 1 to 65535 slots.
 * Returns RDSRT_OK, or RDSRT_BAD_ARGUMENT if the dwell is 0. */
uint32_t rdsrt_receiver_init(struct rdsrt_receiver *receiver, uint16_t pi, uint16_t dwell);

/* Does the same for a receiver that shows only what it received twice. Its groups may have corrected bits. window: W, 2
 * to 255 slots. A segment of a text or name counts only if the last one with its address was the same and came less than
 * W slots before. RT+ tags count only if the last ones were the same, came less than W slots before, and came later than
 * the first segment of the text that counted. The window has to be longer than the station's round, the time from a
 * segment to the same one: for example 64 slots, if one group in four is a segment of a text of 16 segments.
 * Returns RDSRT_OK, or RDSRT_BAD_ARGUMENT if a number is out of range. */
uint32_t rdsrt_receiver_init_confirming(struct rdsrt_receiver *receiver, uint16_t pi, uint16_t dwell, uint16_t window);

/* Ends a slot. count is 4 if these four blocks were received, and 0 if not (blocks may be NULL). A group with a lost
 * block is a lost slot: pass count 0, also if block 1 alone is lost. Do not put in your PI: the group may be of another
 * station. A group of another programme counts as a lost slot.
 * Returns RDSRT_CHANGED if the view may have changed, RDSRT_OK if it did not, and RDSRT_BAD_ARGUMENT for any other
 * count: then no slot has ended. */
uint32_t rdsrt_receiver_slot(struct rdsrt_receiver *receiver, const uint16_t *blocks, size_t count);

/* Writes all of *view: the display of the receiver at the end of its last slot. */
void rdsrt_receiver_view(const struct rdsrt_receiver *receiver, struct rdsrt_view *view);

/* The segments that a receiver holds of a text or a name: four characters each, two segments in a name. Bit a of `held`
 * is 1 if segment a is held, that is characters 4a to 4a + 3. `age` is how many slots ago the newest one came, or the
 * dwell if none is held. */
struct rdsrt_segments { uint16_t held, age; };
struct rdsrt_held { struct rdsrt_segments text, name; };

/* Writes all of *held, at the end of the last slot: with a window, the segments that counted. A display can show the
 * progress of a text that is not complete, or grey out one whose last segment came long ago. It shows no text of these
 * segments: the view has it once it is complete. */
void rdsrt_receiver_held(const struct rdsrt_receiver *receiver, struct rdsrt_held *held);

/* ---- A display that keeps the last text ---- */

/* Makes a display that shows nothing, of a receiver that has received nothing yet. Call it with each _init of the
 * receiver. keep: N, for how many slots the display goes on showing what the receiver dropped. 0: it shows what the
 * receiver shows. */
void rdsrt_display_init(struct rdsrt_display *display, uint16_t keep);

/* Ends a slot of the receiver, in place of rdsrt_receiver_slot, and of its display. Take the same receiver in each call.
 * After the receiver drops a text, the display goes on showing it, with its tags and item bits as they were, for up to N
 * slots. It stops before if the receiver shows another text, or holds a segment with the other A/B flag: then a new text
 * is on its way. It does so with the name by itself. If the receiver shows a text or a name, the display shows the same.
 * Returns RDSRT_CHANGED if display->view may have changed, RDSRT_OK if it did not, and RDSRT_BAD_ARGUMENT for a count
 * other than 0 and 4: then no slot has ended. */
uint32_t rdsrt_display_slot(struct rdsrt_display *display, struct rdsrt_receiver *receiver, const uint16_t *blocks,
                            size_t count);

/* ---- Tags in another group type ---- */

/* All calls read and write RT+ tags in group 11A. A station may have them in another type of version A: its groups 3A say
 * which, with the application 4BD7. This call exchanges 11A and that type in the blocks of a group, in its own type and
 * in a 3A. Make it for each group before rdsrt_receiver_slot, rdsrt_audit_slot and rdsrt_audit_all_faults, and after
 * rdsrt_encoder_tick. The same call again exchanges them back. number: 5 to 9 or 11 to 13; with 11 nothing changes.
 * Returns RDSRT_OK, or RDSRT_BAD_ARGUMENT for another number. */
uint32_t rdsrt_exchange_tag_group(uint8_t number, uint16_t blocks[4]);

/* ---- Times and slots ---- */

/* Returns how long so many slots take, in microseconds, rounded down. 19 slots take 1.664 s. */
uint64_t rdsrt_slot_time(uint32_t slots);

/* Reads the time that a text begins with, in microseconds: what follows the blocks and a space in a line of a log.
 * These are the forms of FORMATS.md:
 * - 2024-06-01T07:58:12.08+02:00, or with @ before it, / for -, a space for T, a comma for the point, without a zone,
 *   or with the zone Z or +0200. It counts from the first day of the year 0; with a zone in UTC.
 * - 07:58:12.08, or with a comma. It counts from midnight.
 * - 12.5: seconds with at most 12 digits before the point.
 * - 1717228692080: 13 digits are milliseconds, without a fraction.
 * The fraction may be left out. Spaces and tabs may come before the time, and [ and ] around it. After it comes a space, a
 * tab, a carriage return or the end of the text. The time, with these spaces and brackets, ends within the first 40 bytes.
 * (The command slots of the program reads one that ends within 39.)
 * Returns RDSRT_OK, or RDSRT_UNKNOWN, and *time is unchanged, if the text does not begin with such a time. */
uint32_t rdsrt_time_in(const uint8_t *text, size_t length, uint64_t *time);

/* Returns how many slots were lost between two groups that arrived at these times, in microseconds of any clock: the
 * time between them less the grain, in slots and rounded up, less one; at least 0. The grain
 * is how far the times may be off, in microseconds. If the delays of the groups vary by less than a slot less the
 * grain, the number is never too small. End as many slots without a group before the slot of the later group.
 * Returns RDSRT_UNKNOWN if the later time is before the earlier one, or more than an hour after it, or if the grain is
 * 87,579 or more. Nobody knows then how many slots were lost. End as many as the dwell: the receiver drops all it
 * holds. For a display that keeps, end N more. They may hide a fault from an audit, so begin a new one there. */
uint32_t rdsrt_lost_slots(uint64_t earlier, uint64_t later, uint32_t grain);

/* ---- Encoder ---- */

/* Makes an encoder that (re)starts in this slot, with nothing on air. It sends nothing and refuses every set for
 * dwell + late slots. Restart before the sets of a slot, not after them. pi: the programme; tp: its flag of traffic
 * announcements, 0 or not; pty: its programme type, 0 to 31; dwell: M, 1 to 65535 slots; late: K, how many slots late a
 * group may reach a receiver, 0 to 1024.
 * Returns RDSRT_OK, or RDSRT_BAD_ARGUMENT if a number is out of range. */
uint32_t rdsrt_encoder_init(struct rdsrt_encoder *encoder, uint16_t pi, uint8_t tp, uint8_t pty, uint16_t dwell,
                            uint16_t late);

/* Puts a text of 0 to 64 bytes, or a name of 0 to 8 bytes, on air from this slot on. It replaces the one before; a text
 * also removes the tags. Bytes are in the RDS character table (rdsrt_text_from_utf8). Bytes below 0x20 are invalid,
 * except 0x0A, 0x0B and 0x1F in a text.
 * Codes: RDSRT_OK; RDSRT_TOO_LONG or RDSRT_BAD_BYTE if the bytes are invalid; else RDSRT_SILENT or RDSRT_HELD: try
 * again after `number` slots. */
struct rdsrt_reply rdsrt_encoder_set_text(struct rdsrt_encoder *encoder, const uint8_t *text, size_t length);
struct rdsrt_reply rdsrt_encoder_set_name(struct rdsrt_encoder *encoder, const uint8_t *name, size_t length);

/* Gives the text on air these tags, in place of those before. The encoder sends them once the text has been on air for
 * M + K slots.
 * Codes: RDSRT_OK; RDSRT_BAD_TAGS if the numbers are invalid; else RDSRT_SILENT, RDSRT_NO_TEXT, RDSRT_OUT_OF_TEXT_1 or
 * RDSRT_OUT_OF_TEXT_2. */
struct rdsrt_reply rdsrt_encoder_set_tags(struct rdsrt_encoder *encoder, const struct rdsrt_tags *tags);

/* Ends the slot, after its sets, of which there may be any number. is_free: 0 if other services need the slot (then the
 * encoder sends nothing), else not 0.
 * Returns RDSRT_SENT and writes the four blocks of the group to send, or returns RDSRT_OK and leaves the blocks. */
uint32_t rdsrt_encoder_tick(struct rdsrt_encoder *encoder, uint8_t is_free, uint16_t blocks[4]);

/* Writes all of *air: the text and the name on air. */
void rdsrt_encoder_on_air(const struct rdsrt_encoder *encoder, struct rdsrt_on_air *air);

/* Writes for how many more slots the encoder refuses sets, this slot included. */
void rdsrt_encoder_wait(const struct rdsrt_encoder *encoder, struct rdsrt_wait *wait);

/* ---- Audit: does an encoder keep the rules that prevent mixes? ---- */

/* Makes an audit before the first slot of a complete log: one that begins when the station starts. dwell: M, 1 to 65535
 * slots; late: K, 0 to 1024 slots.
 * Returns RDSRT_OK, or RDSRT_BAD_ARGUMENT if a number is out of range. */
uint32_t rdsrt_audit_init(struct rdsrt_audit *audit, uint16_t pi, uint16_t dwell, uint16_t late);

/* Does the same for a recording: the station was on air before its first slot. The audit takes M + K lost slots before
 * it, so the first text may have started at any time. RT+ tags before the first text segment are not judged, since
 * their text may be older; no receiver of the recording shows them. */
uint32_t rdsrt_audit_init_running(struct rdsrt_audit *audit, uint16_t pi, uint16_t dwell, uint16_t late);

/* The flags of an audit, in any sum. */
#define RDSRT_AUDIT_RUNNING UINT32_C(1)   /* the log is a recording, as for rdsrt_audit_init_running */
#define RDSRT_AUDIT_PADDED UINT32_C(2)    /* bytes behind the carriage return of a text do not count */

/* Does the same with these flags. With RDSRT_AUDIT_PADDED a text may have any bytes behind its carriage return, and any
 * segments behind the one that has it; all may change at any time (FORMATS.md, "Texts with padding"). Receivers show
 * nothing of them.
 * Returns RDSRT_OK, or RDSRT_BAD_ARGUMENT if a number is out of range or a bit of `flags` is no flag. */
uint32_t rdsrt_audit_init_with(struct rdsrt_audit *audit, uint16_t pi, uint16_t dwell, uint16_t late, uint32_t flags);

/* Ends a slot. count is 4 if this group was sent, and 0 if nothing was sent (blocks may be NULL).
 * Returns RDSRT_OK until a rule is broken, and then, in this and in every later slot, the code of that fault
 * (RDSRT_FAULT_..). Returns RDSRT_BAD_ARGUMENT for any other count: then no slot has ended. */
uint32_t rdsrt_audit_slot(struct rdsrt_audit *audit, const uint16_t *blocks, size_t count);

/* Ends a slot, as rdsrt_audit_slot does, also after a fault. Writes the faults that the slot adds to the list of all
 * faults: 1 for each, else 0. A text or a name has each fault at most once, in the first slot in which it breaks the
 * rule. Other bytes at an address of a text begin a new text. The first fault of the list is the one that
 * rdsrt_audit_slot returns (FORMATS.md, "All faults of a log").
 * Returns RDSRT_OK, or RDSRT_BAD_ARGUMENT for a count other than 0 and 4: then no slot has ended and nothing is
 * written. */
uint32_t rdsrt_audit_all_faults(struct rdsrt_audit *audit, const uint16_t *blocks, size_t count,
                                struct rdsrt_faults *faults);

/* Returns 1 until a rule is broken, and then 0. 1 means that no receiver with this dwell shows a mix of two of these
 * texts or names, whichever groups it loses, if it ends every slot, and its groups come unchanged, in order and at most
 * `late` slots late. An audit that met no group of the programme returns 1 too. */
uint32_t rdsrt_audit_passed(const struct rdsrt_audit *audit);

/* Returns 1 if no rule is broken so far and the A/B flag turned with each new text, and else 0; the second call says it
 * of names. If 1, and if the audit has no RDSRT_AUDIT_PADDED: a receiver without a dwell, which keeps its segments until
 * the flag turns, shows no mix of these texts if it received a segment of each of them. */
uint32_t rdsrt_audit_texts_turn_the_flag(const struct rdsrt_audit *audit);
uint32_t rdsrt_audit_names_turn_the_flag(const struct rdsrt_audit *audit);

/* Returns how many texts, or names, the log has so far. One that changed its bytes without the flag counts as two. After
 * a fault only rdsrt_audit_all_faults counts on. */
uint64_t rdsrt_audit_texts(const struct rdsrt_audit *audit);
uint64_t rdsrt_audit_names(const struct rdsrt_audit *audit);

/* ---- Texts as UTF-8 ---- */

/* For a display. Writes a text, up to 64 bytes of the RDS character table, as UTF-8: at most 192 bytes, with no 0 at
 * the end. Each byte becomes one character. A byte without a character becomes U+FFFD, also the control characters that
 * a text may have: 0x0A (a new line), 0x0B (the end of a headline) and 0x1F (a soft hyphen). Replace these first, as
 * your display needs it. room: how many bytes `into` has.
 * Returns RDSRT_OK, and *count is the number of bytes written; RDSRT_NO_ROOM, and *count is the room needed; or
 * RDSRT_TOO_LONG, and *count is unchanged. An error writes nothing at `into`. */
uint32_t rdsrt_text_to_display(const uint8_t *text, size_t length, uint8_t *into, size_t room, size_t *count);

/* For logs and scripts: rdsrt_text_from_utf8 reads this form as the same bytes, and you can write it between quotation
 * marks. It has fewer characters than a display. Writes a text, up to 64 bytes of the RDS character table, as UTF-8: at
 * most 256 bytes, with no 0 at the end. A byte without a character here, and the quotation mark, become \xHH.
 * Codes: those of rdsrt_text_to_display. */
uint32_t rdsrt_text_to_utf8(const uint8_t *text, size_t length, uint8_t *into, size_t room, size_t *count);

/* Reads UTF-8, in which \xHH may stand for a byte, as bytes of the RDS character table.
 * Returns RDSRT_OK, and *count is the number of bytes written; RDSRT_BAD_ESCAPE or RDSRT_NO_CHARACTER, and *count is
 * the offset in bytes of the first invalid piece; RDSRT_NOT_UTF8 or RDSRT_NO_ROOM, and *count is unchanged. An error
 * writes nothing at `into`. */
uint32_t rdsrt_text_from_utf8(const uint8_t *utf8, size_t length, uint8_t *into, size_t room, size_t *count);

/* ---- Names of numbers ---- */

/* A name: `length` characters of ASCII, at most 30, and a 0 in each byte after them. */
struct rdsrt_label { char bytes[31]; uint8_t length; };

/* Writes the name of an RT+ content type: ITEM.ARTIST for 4. It is empty for 54 to 58 and from 64 on, which have none. */
void rdsrt_type_name(uint8_t content_type, struct rdsrt_label *name);

/* Writes the name of an error or a fault: RDSRT_HELD for 4. It is empty for every other code. */
void rdsrt_code_name(uint32_t code, struct rdsrt_label *name);

#ifdef __cplusplus
}
#define RDSRT_IS_(fact) static_assert(fact, "rdsrt.h: the layout is not the library's")
#else
#define RDSRT_IS_(fact) _Static_assert(fact, "rdsrt.h: the layout is not the library's")
#endif

/* The layout that the library was built with. */
RDSRT_IS_(sizeof(struct rdsrt_version) == 16 && offsetof(struct rdsrt_version, major) == 4);
RDSRT_IS_(offsetof(struct rdsrt_version, minor) == 8 && offsetof(struct rdsrt_version, patch) == 12);
RDSRT_IS_(sizeof(struct rdsrt_receiver) == 264);
RDSRT_IS_(sizeof(struct rdsrt_encoder) == 116);
RDSRT_IS_(sizeof(struct rdsrt_audit) == 312);
RDSRT_IS_(sizeof(struct rdsrt_faults) == 5 && offsetof(struct rdsrt_faults, early_flag) == 1);
RDSRT_IS_(offsetof(struct rdsrt_faults, not_one_text) == 2 && offsetof(struct rdsrt_faults, early_tag) == 3);
RDSRT_IS_(offsetof(struct rdsrt_faults, tag_outside) == 4);
RDSRT_IS_(sizeof(struct rdsrt_text) == 66 && offsetof(struct rdsrt_text, length) == 64);
RDSRT_IS_(offsetof(struct rdsrt_text, is_shown) == 65);
RDSRT_IS_(sizeof(struct rdsrt_name) == 9 && offsetof(struct rdsrt_name, is_shown) == 8);
RDSRT_IS_(sizeof(struct rdsrt_item) == 3 && offsetof(struct rdsrt_item, toggle) == 1);
RDSRT_IS_(offsetof(struct rdsrt_item, running) == 2);
RDSRT_IS_(sizeof(struct rdsrt_tag) == 3 && offsetof(struct rdsrt_tag, start) == 1);
RDSRT_IS_(offsetof(struct rdsrt_tag, length) == 2);
RDSRT_IS_(sizeof(struct rdsrt_view) == 84 && offsetof(struct rdsrt_view, name) == 66);
RDSRT_IS_(offsetof(struct rdsrt_view, item) == 75 && offsetof(struct rdsrt_view, tag1) == 78);
RDSRT_IS_(offsetof(struct rdsrt_view, tag2) == 81);
RDSRT_IS_(sizeof(struct rdsrt_display) == 94 && offsetof(struct rdsrt_display, own_) == 84);
RDSRT_IS_(sizeof(struct rdsrt_segments) == 4 && offsetof(struct rdsrt_segments, age) == 2);
RDSRT_IS_(sizeof(struct rdsrt_held) == 8 && offsetof(struct rdsrt_held, name) == 4);
RDSRT_IS_(sizeof(struct rdsrt_label) == 32 && offsetof(struct rdsrt_label, length) == 31);
RDSRT_IS_(sizeof(struct rdsrt_on_air) == 75 && offsetof(struct rdsrt_on_air, name) == 66);
RDSRT_IS_(sizeof(struct rdsrt_tags) == 8 && offsetof(struct rdsrt_tags, tag2) == 3);
RDSRT_IS_(offsetof(struct rdsrt_tags, toggle) == 6 && offsetof(struct rdsrt_tags, running) == 7);
RDSRT_IS_(sizeof(struct rdsrt_reply) == 8 && offsetof(struct rdsrt_reply, number) == 4);
RDSRT_IS_(sizeof(struct rdsrt_wait) == 12 && offsetof(struct rdsrt_wait, text) == 4);
RDSRT_IS_(offsetof(struct rdsrt_wait, name) == 8);
#undef RDSRT_IS_

#endif
