/* The calls of rdsrt.h that differ on 32 bits. The module's calls (wide_..) take lengths and write counts of 64 bits.
 * If one returns a struct in registers, narrow.py adds a call .._into that writes the struct. */
#include <rdsrt.h>

#define SLOT(name, of)                                                                                              \
    uint32_t wide_##name(struct of *, const uint16_t *, uint64_t);                                                  \
    uint32_t name(struct of *it, const uint16_t *blocks, size_t count) { return wide_##name(it, blocks, count); }

#define REPLY(name, parameters, ...)                                                                                \
    struct rdsrt_reply name parameters {                                                                            \
        struct rdsrt_reply reply;                                                                                   \
        wide_##name##_into(&reply, __VA_ARGS__);                                                                    \
        return reply;                                                                                               \
    }

#define SET(name)                                                                                                   \
    void wide_##name##_into(struct rdsrt_reply *, struct rdsrt_encoder *, const uint8_t *, uint64_t);               \
    REPLY(name, (struct rdsrt_encoder * it, const uint8_t *bytes, size_t length), it, bytes, length)

#define TEXT(name)                                                                                                  \
    uint32_t wide_##name(const uint8_t *, uint64_t, uint8_t *, uint64_t, uint64_t *);                               \
    uint32_t name(const uint8_t *from, size_t length, uint8_t *into, size_t room, size_t *count) {                  \
        uint64_t written = *count;                                                                                  \
        uint32_t code = wide_##name(from, length, into, room, &written);                                            \
        *count = (size_t)written;                                                                                   \
        return code;                                                                                                \
    }

void wide_rdsrt_version_into(struct rdsrt_version *);
struct rdsrt_version rdsrt_version(void) {
    struct rdsrt_version it;
    wide_rdsrt_version_into(&it);
    return it;
}

void wide_rdsrt_encoder_set_tags_into(struct rdsrt_reply *, struct rdsrt_encoder *, const struct rdsrt_tags *);
REPLY(rdsrt_encoder_set_tags, (struct rdsrt_encoder * it, const struct rdsrt_tags *tags), it, tags)
SET(rdsrt_encoder_set_text)
SET(rdsrt_encoder_set_name)
SLOT(rdsrt_receiver_slot, rdsrt_receiver)
SLOT(rdsrt_audit_slot, rdsrt_audit)

uint32_t wide_rdsrt_display_slot(struct rdsrt_display *, struct rdsrt_receiver *, const uint16_t *, uint64_t);
uint32_t rdsrt_display_slot(struct rdsrt_display *it, struct rdsrt_receiver *receiver, const uint16_t *blocks,
                            size_t count) {
    return wide_rdsrt_display_slot(it, receiver, blocks, count);
}

uint32_t wide_rdsrt_audit_all_faults(struct rdsrt_audit *, const uint16_t *, uint64_t, struct rdsrt_faults *);
uint32_t rdsrt_audit_all_faults(struct rdsrt_audit *it, const uint16_t *blocks, size_t count,
                                struct rdsrt_faults *faults) {
    return wide_rdsrt_audit_all_faults(it, blocks, count, faults);
}

uint32_t wide_rdsrt_time_in(const uint8_t *, uint64_t, uint64_t *);
uint32_t rdsrt_time_in(const uint8_t *text, size_t length, uint64_t *time) {
    return wide_rdsrt_time_in(text, length, time);
}

TEXT(rdsrt_text_to_display)
TEXT(rdsrt_text_to_utf8)
TEXT(rdsrt_text_from_utf8)
