/* A receive loop with a clock of slots (radio.h). Groups come from a demodulator, with times of its clock.
 *
 * Each line of the input has a time in microseconds, followed by the four blocks of the group that was complete then. A
 * line with only a time is a timer: no whole group came up to then. So is a line with damaged blocks: its slot is lost.
 * tuner.c has the loop for a tuner chip with an interrupt.
 *
 *     export PKG_CONFIG_PATH=~/rdsrt/lib/pkgconfig
 *     cc receive.c $(pkg-config --cflags --libs rdsrt) -Wl,-rpath,$(pkg-config --variable=libdir rdsrt) -o receive
 *     ./receive C201 < groups
 *
 * Arguments: PI [DWELL [WINDOW [KEEP_SECONDS]]]. `./install ~/rdsrt` installs the library. */
#include <rdsrt.h>

#include "log.h"
#include "radio.h"
#include "view.h"

#include <inttypes.h>
#include <stdio.h>
#include <stdlib.h>

static void show(const struct radio *radio, const struct rdsrt_view *was) {
    print_changes((unsigned long)radio->slot, was, &radio->display.view);
}

/* Reads the blocks after a time: a space and four digits for each, up to the end of the line or another space. */
static bool read_blocks(const char *at, uint16_t blocks[4]) {
    for (int b = 0; b < 4; b++, at += 5) {
        if (*at != ' ' || !read_block((const unsigned char *)at + 1, &blocks[b])) return false;
    }
    return *at == 0 || strchr(" \r\n", *at) != NULL;
}

int main(int count, char **words) {
    static struct radio radio;
    char line[128];
    unsigned long pi = count > 1 ? strtoul(words[1], NULL, 16) : 0x10000;
    unsigned long dwell = count > 2 ? strtoul(words[2], NULL, 10) : RDSRT_DEFAULT_DWELL;
    unsigned long window = count > 3 ? strtoul(words[3], NULL, 10) : 0;
    unsigned long keep = count > 4 ? strtoul(words[4], NULL, 10) : 60;

    if (pi > 0xFFFF || dwell > 0xFFFF || window > 0xFFFF || keep > 0xFFFF
        || !radio_init(&radio, (uint16_t)pi, (uint16_t)dwell, (uint16_t)window, (uint16_t)keep, show)) {
        fputs("usage: receive PI [DWELL [WINDOW [KEEP_SECONDS]]] < groups\n", stderr);
        return 2;
    }
    while (fgets(line, sizeof line, stdin)) {
        uint64_t now;
        uint16_t blocks[4];
        int end;
        if (sscanf(line, "%" SCNu64 "%n", &now, &end) < 1) return 1;
        if (read_blocks(line + end, blocks)) {
            radio_group(&radio, now, blocks);
        } else {
            radio_time(&radio, now);
        }
    }
    return 0;
}
