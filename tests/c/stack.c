/* Prints the most bytes of stack that a call for a receiver took, over groups by chance. The stack below the caller is
 * painted before the call, and the deepest byte that has changed is looked for after it.
 *
 * With COUNT, on a Cortex-M, it then prints the instructions of the call of a slot: the mean and the most. COUNT is the
 * nanoseconds of an instruction in qemu (-icount), whose SysTick has a tick each 40 ns. */
#include <rdsrt.h>
#include <stdio.h>

enum { PAINTED = 2048, MARK = 0xA5, SLOTS = 5000 };

static struct rdsrt_receiver receiver;
static struct rdsrt_view view;
static uint16_t blocks[4];

static void init(void) { rdsrt_receiver_init(&receiver, 0xC201, 4); }
static void slot(void) { rdsrt_receiver_slot(&receiver, blocks, 4); }
static void show(void) { rdsrt_receiver_view(&receiver, &view); }

/* Returns how many bytes below this function's frame the call wrote. */
static __attribute__((noinline)) int taken(void (*call)(void)) {
    volatile unsigned char *low = (volatile unsigned char *)__builtin_frame_address(0) - PAINTED;
    int kept = 0;
    for (int at = 0; at < PAINTED - 64; at++)
        low[at] = MARK;
    call();
    while (kept < PAINTED - 64 && low[kept] == MARK)
        kept++;
    return PAINTED - kept;
}

#ifdef COUNT
static volatile uint32_t *const systick = (volatile uint32_t *)0xE000E010; /* control, reload, current */

/* Returns the ticks of a call. */
static __attribute__((noinline)) uint32_t ticks(void (*call)(void)) {
    uint32_t before = systick[2];
    call();
    return (before - systick[2]) & 0xFFFFFF;
}

static void nothing(void) {}
#endif

int main(void) {
    uint32_t chance = 20261129;
#ifdef COUNT
    uint32_t sum = 0, longest = 0, empty;
    systick[1] = 0xFFFFFF, systick[2] = 0, systick[0] = 5;
    empty = ticks(nothing);
#endif
    int most = taken(init);
    for (int it = 0; it < SLOTS; it++) {
        for (int block = 0; block < 4; block++) {
            chance = chance * 1664525 + 1013904223;
            blocks[block] = chance >> 16;
        }
        blocks[0] = 0xC201;
        /* a text, a name, tags or their announcement, with few addresses */
        static const uint16_t kinds[] = {0x2140, 0xA540, 0xB150, 0x3156};
        blocks[1] = kinds[it % 4] | (blocks[1] & 0x13);
        if (it % 4 == 3)
            blocks[3] = 0x4BD7;
        else if (it % 4 < 2) {
            blocks[2] = 0x4041 | (blocks[2] & 0x0F0F);
            blocks[3] = 0x4041 | (blocks[3] & 0x0F0F);
        }
#ifdef COUNT
        /* the same slot is played twice: no message changes by that */
        uint32_t now = ticks(slot) - empty;
        sum += now, longest = now > longest ? now : longest;
#endif
        int one = taken(slot), other = taken(show);
        most = one > most ? one : most;
        most = other > most ? other : most;
    }
    printf("%d\n", most);
#ifdef COUNT
    printf("%lu %lu\n", (unsigned long)(sum * 40 / COUNT / SLOTS), (unsigned long)(longest * 40 / COUNT));
#endif
    return 0;
}
