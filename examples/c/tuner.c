/* A receiver behind a tuner chip that interrupts for each group. Copy group_interrupt and take_groups.
 *
 * - The interrupt handler reads the timer, the four blocks and their error levels, and calls group_interrupt. It keeps
 *   the group with its time if no block has more errors than `most_errors`. It makes no call of the library.
 * - The main loop calls take_groups, if possible in each slot (88 ms), and at least once an hour. It makes one call of
 *   the library for each slot: the time between two groups says how many slots had none. So a lost group becomes a lost
 *   slot by itself, and so does a group for which there was no place. If no group comes any more, the text still goes
 *   after the dwell and the seconds for which the display keeps it.
 * - If the chip is behind I2C, the handler cannot read it. Then keep only the time in the handler. Read the chip in the
 *   main loop within a slot (88 ms), before the chip has the next group. Call radio_group with long_time of that time, and
 *   radio_time in each slot without an interrupt.
 *
 * The rest is a trial on a computer, with lines in place of the interrupt and the timer. A line has the timer in
 * microseconds, alone for a call of take_groups. An interrupt has four blocks and four error levels after it (0 is no
 * error). With a window it counts level 1 too. The timer has 32 bits: it begins again after 71 minutes.
 *
 *     export PKG_CONFIG_PATH=~/rdsrt/lib/pkgconfig
 *     cc tuner.c $(pkg-config --cflags --libs rdsrt) -Wl,-rpath,$(pkg-config --variable=libdir rdsrt) -o tuner
 *     ./tuner C201 < interrupts
 *
 * Arguments: PI [WINDOW [KEEP_SECONDS]]. `./install ~/rdsrt` installs the library. */
#include <rdsrt.h>

#include "log.h"
#include "radio.h"
#include "view.h"

#include <stdio.h>
#include <stdlib.h>

/* Groups that wait for the main loop. A power of two, at most 128. */
enum { PLACES = 8 };

/* One processor: the handler interrupts the main loop, and never the other way round. Each volatile access stays in its
 * place, so a group is complete before `written` counts it. For two processors take atomics. */
static volatile struct { uint32_t time; uint16_t blocks[4]; } waiting[PLACES];
static volatile uint8_t written, taken;

/* The highest error level of a block that counts. 0 is a block without an error. With a window it is the level of your
 * chip for up to 2 corrected bits. */
static uint8_t most_errors;

/* Keeps a group, from the interrupt handler. time: of the timer, in microseconds. errors: the level of each block. */
static void group_interrupt(uint32_t time, const uint16_t blocks[4], const uint8_t errors[4]) {
    const uint8_t place = written % PLACES;
    int block;
    for (block = 0; block < 4; block++) {
        if (errors[block] > most_errors) return;
    }
    if ((uint8_t)(written - taken) == PLACES) return;
    waiting[place].time = time;
    for (block = 0; block < 4; block++) waiting[place].blocks[block] = blocks[block];
    written = (uint8_t)(written + 1);
}

/* Returns a time of the timer with 64 bits. Times come in order, and less than 71 minutes apart. */
static uint64_t long_time(uint32_t time) {
    static uint64_t latest;
    latest += (uint32_t)(time - (uint32_t)latest);
    return latest;
}

/* Hands all groups that wait to the radio, and then the time, from the main loop. timer: returns the time now. A group
 * that comes after the call of the timer has a later time, and waits for the next call. */
static void take_groups(struct radio *radio, uint32_t (*timer)(void)) {
    uint32_t now;
    while (taken != written) {
        const uint8_t place = taken % PLACES;
        uint16_t blocks[4];
        uint32_t time = waiting[place].time;
        int block;
        for (block = 0; block < 4; block++) blocks[block] = waiting[place].blocks[block];
        taken = (uint8_t)(taken + 1);
        radio_group(radio, long_time(time), blocks);
    }
    now = timer();
    if (taken == written) radio_time(radio, long_time(now));
}

/* ---- The trial ---- */

enum { NUMBERS = 9 }; /* in a line: the time, four blocks in hexadecimal, four levels */

static uint32_t trial_time;

static uint32_t trial_timer(void) { return trial_time; }

static void show(const struct radio *radio, const struct rdsrt_view *was) {
    print_changes((unsigned long)radio->slot, was, &radio->display.view);
}

/* Reads the numbers of a line. Returns how many there are, or 0 if another byte follows. */
static int read_numbers(char *line, unsigned long numbers[NUMBERS]) {
    int found;
    for (found = 0; found < NUMBERS; found++) {
        uint16_t block;
        char *end;
        if (found >= 1 && found <= 4) {
            if (*line != ' ' || !read_block((const unsigned char *)line + 1, &block)) break;
            numbers[found] = block;
            line += 5;
            continue;
        }
        numbers[found] = strtoul(line, &end, 10);
        if (end == line) break;
        line = end;
    }
    return *line == 0 || strchr("\r\n", *line) ? found : 0;
}

int main(int count, char **words) {
    static struct radio radio;
    char line[128];
    unsigned long pi = count > 1 ? strtoul(words[1], NULL, 16) : 0x10000;
    unsigned long window = count > 2 ? strtoul(words[2], NULL, 10) : 0;
    unsigned long keep = count > 3 ? strtoul(words[3], NULL, 10) : 60;

    if (pi > 0xFFFF || window > 0xFFFF || keep > 0xFFFF
        || !radio_init(&radio, (uint16_t)pi, RDSRT_DEFAULT_DWELL, (uint16_t)window, (uint16_t)keep, show)) {
        fputs("usage: tuner PI [WINDOW [KEEP_SECONDS]] < interrupts\n", stderr);
        return 2;
    }
    most_errors = window ? 1 : 0;
    while (fgets(line, sizeof line, stdin)) {
        unsigned long numbers[NUMBERS];
        uint16_t blocks[4];
        uint8_t errors[4];
        int block, read = read_numbers(line, numbers);
        if (read != 1 && read != NUMBERS) return 1;
        trial_time = (uint32_t)numbers[0];
        for (block = 0; read == NUMBERS && block < 4; block++) {
            blocks[block] = (uint16_t)numbers[1 + block];
            errors[block] = (uint8_t)numbers[5 + block];
        }
        if (read == 1) {
            take_groups(&radio, trial_timer);
        } else {
            group_interrupt(trial_time, blocks, errors);
        }
    }
    return 0;
}
