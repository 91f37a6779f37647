/* Does what `rdsrt audit` does: reads a log of all groups of an encoder, and prints whether they keep the rules, or the
 * first slot that breaks one.
 *
 *     export PKG_CONFIG_PATH=~/rdsrt/lib/pkgconfig
 *     cc audit.c $(pkg-config --cflags --libs rdsrt) -Wl,-rpath,$(pkg-config --variable=libdir rdsrt) -o audit
 *     ./audit C201 < log
 *
 * Arguments: [--running] [--padded] PI [DWELL [LATE]]. `./install ~/rdsrt` installs the library. */
#include <rdsrt.h>

#include "log.h"

#include <stdlib.h>
#include <string.h>

static const char *fault_name(uint32_t code) {
    switch (code) {
    case RDSRT_FAULT_CHANGED: return "Changed";
    case RDSRT_FAULT_NOT_ONE_TEXT: return "NotOneText";
    case RDSRT_FAULT_EARLY_FLAG: return "EarlyFlag";
    case RDSRT_FAULT_EARLY_TAG: return "EarlyTag";
    default: return "TagOutside";
    }
}

int main(int count, char **words) {
    struct rdsrt_audit audit;
    struct line line;
    uint16_t blocks[4];
    unsigned long slot = 0, number = 0;
    uint32_t flags = 0;
    for (; count > 1 && words[1][0] == '-'; count--, words++) {
        if (strcmp(words[1], "--running") == 0) flags |= RDSRT_AUDIT_RUNNING;
        else if (strcmp(words[1], "--padded") == 0) flags |= RDSRT_AUDIT_PADDED;
        else break;
    }
    unsigned long pi = count > 1 ? strtoul(words[1], NULL, 16) : 0x10000;
    unsigned long dwell = count > 2 ? strtoul(words[2], NULL, 10) : RDSRT_DEFAULT_DWELL;
    unsigned long late = count > 3 ? strtoul(words[3], NULL, 10) : 0;

    if (pi > 0xFFFF || dwell > 0xFFFF || late > 0xFFFF
        || rdsrt_audit_init_with(&audit, (uint16_t)pi, (uint16_t)dwell, (uint16_t)late, flags) != RDSRT_OK) {
        fputs("usage: audit [--running] [--padded] PI [DWELL [LATE]] < log\n", stderr);
        return 2;
    }
    while (next_line(&line)) {
        enum said said = read_line(&line, blocks);
        number++;
        if (said == SKIP) continue;
        if (said == BAD) {
            printf("fault line %lu\n", number);
            return 1;
        }
        uint32_t code = rdsrt_audit_slot(&audit, blocks, said == GROUP ? 4 : 0);
        if (code != RDSRT_OK) {
            printf("no %lu %s\n", slot, fault_name(code));
            return 1;
        }
        slot++;
    }
    printf("yes %lu\n", slot);
    return 0;
}
