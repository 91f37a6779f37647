/* Does what `rdsrt decode` does: reads a log of received groups and prints each part of the view that changes.
 *
 *     export PKG_CONFIG_PATH=~/rdsrt/lib/pkgconfig
 *     cc decode.c $(pkg-config --cflags --libs rdsrt) -Wl,-rpath,$(pkg-config --variable=libdir rdsrt) -o decode
 *     ./decode C201 < log
 *
 * Arguments: PI [DWELL]. `./install ~/rdsrt` installs the library. */
#include <rdsrt.h>

#include "log.h"
#include "view.h"

#include <stdlib.h>

int main(int count, char **words) {
    struct rdsrt_receiver receiver;
    struct rdsrt_view was, is;
    struct line line;
    uint16_t blocks[4];
    unsigned long slot = 0, number = 0;
    unsigned long pi = count > 1 ? strtoul(words[1], NULL, 16) : 0x10000;
    unsigned long dwell = count > 2 ? strtoul(words[2], NULL, 10) : RDSRT_DEFAULT_DWELL;

    if (pi > 0xFFFF || dwell > 0xFFFF
        || rdsrt_receiver_init(&receiver, (uint16_t)pi, (uint16_t)dwell) != RDSRT_OK) {
        fputs("usage: decode PI [DWELL] < log\n", stderr);
        return 2;
    }
    rdsrt_receiver_view(&receiver, &was);
    while (next_line(&line)) {
        enum said said = read_line(&line, blocks);
        number++;
        if (said == SKIP) continue;
        if (said == BAD) {
            printf("fault line %lu\n", number);
            return 1;
        }
        if (rdsrt_receiver_slot(&receiver, blocks, said == GROUP ? 4 : 0) == RDSRT_CHANGED) {
            rdsrt_receiver_view(&receiver, &is);
            print_changes(slot, &was, &is);
            was = is;
        }
        slot++;
    }
    return 0;
}
