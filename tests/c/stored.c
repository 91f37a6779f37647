/* Prints the bytes of each struct that a program may store, after a short list of calls that gives its fields different
 * numbers. COMPATIBILITY.md promises the same bytes for the same RDSRT_ABI.   ./stored */
#include <rdsrt.h>

#include <stdio.h>

static void print(const char *name, const void *of, size_t size) {
    const unsigned char *bytes = (const unsigned char *)of;
    printf("%s ", name);
    for (size_t i = 0; i < size; i++) printf("%02X", bytes[i]);
    putchar('\n');
}

/* Groups of a station: part of a text, a name with the other flag, RT+ in 11A and two tags. */
static const uint16_t groups[][4] = {
    {0xC201, 0x2141, 0x4142, 0x4344}, {0xC201, 0x2143, 0x4546, 0x4748}, {0xC201, 0xA550, 0x4A41, 0x5A5A},
    {0xC201, 0x3156, 0x0000, 0x4BD7}, {0xC201, 0xB15A, 0x2083, 0x2108}};
enum { GROUPS = sizeof groups / sizeof *groups };

static void receivers(void) {
    struct rdsrt_receiver receiver;
    struct rdsrt_display display;
    static const uint16_t whole[4] = {0xC201, 0x2140, 0x4849, 0x0D20};
    rdsrt_receiver_init_confirming(&receiver, 0xC201, 300, 40);
    for (int i = 0; i < 2 * GROUPS - 1; i++) rdsrt_receiver_slot(&receiver, groups[i % GROUPS], 4);
    rdsrt_receiver_slot(&receiver, NULL, 0);
    print("receiver", &receiver, sizeof receiver);
    rdsrt_receiver_init(&receiver, 0xC201, 3);
    rdsrt_display_init(&display, 700);
    rdsrt_display_slot(&display, &receiver, whole, 4);
    for (int i = 0; i < 8; i++) rdsrt_display_slot(&display, &receiver, NULL, 0);
    print("display", &display, sizeof display);
}

static void encoder(void) {
    struct rdsrt_encoder encoder;
    static const struct rdsrt_tags tags = {{4, 0, 4}, {1, 7, 5}, 1, 0};
    uint16_t blocks[4];
    rdsrt_encoder_init(&encoder, 0xC201, 1, 10, 300, 5);
    for (int i = 0; i < 311; i++) rdsrt_encoder_tick(&encoder, 1, blocks);
    rdsrt_encoder_set_text(&encoder, (const uint8_t *)"ABBA - Waterloo", 15);
    rdsrt_encoder_set_tags(&encoder, &tags);
    for (int i = 0; i < 7; i++) rdsrt_encoder_tick(&encoder, 1, blocks);
    rdsrt_encoder_set_name(&encoder, (const uint8_t *)"JAZZ FM", 7);
    for (int i = 0; i < 2; i++) rdsrt_encoder_tick(&encoder, i == 0, blocks);
    print("encoder", &encoder, sizeof encoder);
}

static void audit(void) {
    struct rdsrt_audit audit;
    rdsrt_audit_init_with(&audit, 0xC201, 300, 7, RDSRT_AUDIT_RUNNING);
    for (int i = 0; i < GROUPS; i++) rdsrt_audit_slot(&audit, groups[i], 4);
    for (int i = 0; i < 3; i++) rdsrt_audit_slot(&audit, NULL, 0);
    rdsrt_audit_slot(&audit, groups[0], 4);
    print("audit", &audit, sizeof audit);
}

int main(void) {
    printf("RDSRT_ABI %d\n", RDSRT_ABI);
    receivers();
    encoder();
    audit();
    return 0;
}
