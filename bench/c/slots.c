/* Hands a log to a receiver of the C library (with a window if CONFIRMING is defined, with a display that keeps for 60 s
 * if DISPLAY is), to an audit if AUDIT is defined, or to libv4l2rds if V4L2RDS is defined, one slot a line. Only the call
 * of a slot is counted.   ./slots < log */
#include <inttypes.h>
#include <stdio.h>

#ifdef V4L2RDS
#include <libv4l2rds.h>
#include <malloc.h>
#else
#include <rdsrt.h>
#endif

/* The next slot of the log: false at its end; whether a group was received in it. */
static int next_slot(uint16_t blocks[4], int *is_received) {
    char line[128];
    do {
        if (!fgets(line, sizeof line, stdin)) return 0;
    } while (line[0] == '#');
    *is_received = sscanf(line, "%" SCNx16 " %" SCNx16 " %" SCNx16 " %" SCNx16, blocks, blocks + 1, blocks + 2, blocks + 3) == 4;
    return 1;
}

int main(void) {
    uint16_t blocks[4] = {0, 0, 0, 0};
    unsigned long slots = 0, changes = 0;
    int is_received = 0;
#ifdef V4L2RDS
    struct v4l2_rds *rds = v4l2_rds_create(0);
    for (; next_slot(blocks, &is_received); slots++) {
        for (int at = 0; is_received && at < 4; at++) {
            struct v4l2_rds_data data = {(__u8)(blocks[at] & 255), (__u8)(blocks[at] >> 8), (__u8)at};
            changes += v4l2_rds_add(rds, &data) != 0;
        }
    }
    printf("%lu slots, %lu changes, %zu bytes of heap\n", slots, changes, malloc_usable_size(rds));
    v4l2_rds_destroy(rds);
#elif defined AUDIT
    struct rdsrt_audit audit;
    rdsrt_audit_init(&audit, 0xC201, 128, 0);
    for (; next_slot(blocks, &is_received); slots++) {
        changes += rdsrt_audit_slot(&audit, blocks, is_received ? 4 : 0) != RDSRT_OK;
    }
    printf("%lu slots, %lu of them with a fault, %zu bytes of the caller's\n", slots, changes, sizeof audit);
#else
    struct rdsrt_receiver receiver;
#ifdef CONFIRMING
    rdsrt_receiver_init_confirming(&receiver, 0xC201, 64, 65);
#else
    rdsrt_receiver_init(&receiver, 0xC201, 128);
#endif
#ifdef DISPLAY
    struct rdsrt_display display;
    rdsrt_display_init(&display, 685);
    for (; next_slot(blocks, &is_received); slots++) {
        changes += rdsrt_display_slot(&display, &receiver, blocks, is_received ? 4 : 0) == RDSRT_CHANGED;
    }
    printf("%lu slots, %lu changes, %zu bytes of the caller's\n", slots, changes, sizeof receiver + sizeof display);
#else
    for (; next_slot(blocks, &is_received); slots++) {
        changes += rdsrt_receiver_slot(&receiver, blocks, is_received ? 4 : 0) == RDSRT_CHANGED;
    }
    printf("%lu slots, %lu changes, %zu bytes of the caller's\n", slots, changes, sizeof receiver);
#endif
#endif
    return 0;
}
