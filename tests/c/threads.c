/* Eight threads at once, each with a receiver, an encoder and an audit of its own: all come to one answer.
 * ./threads SLOTS */
#include <rdsrt.h>

#include <pthread.h>
#include <stdio.h>
#include <stdlib.h>

enum { THREADS = 8 };

static long slots;

/* What one station sends, one receiver shows and one audit finds in so many slots, as one number. */
static void *work(void *answer) {
    struct rdsrt_receiver receiver;
    struct rdsrt_encoder encoder;
    struct rdsrt_audit audit;
    struct rdsrt_view view;
    uint64_t sum = 0;
    if (rdsrt_receiver_init(&receiver, 0xC201, 8) || rdsrt_encoder_init(&encoder, 0xC201, 0, 10, 8, 0)
        || rdsrt_audit_init(&audit, 0xC201, 8, 0)) {
        return NULL;
    }
    for (long slot = 0; slot < slots; slot++) {
        uint16_t blocks[4] = {0, 0, 0, 0};
        uint8_t text[2] = {'A', (uint8_t)('A' + slot % 26)};
        sum = sum * 31 + rdsrt_encoder_set_text(&encoder, text, sizeof text).code;
        size_t count = rdsrt_encoder_tick(&encoder, slot % 3 != 0, blocks) == RDSRT_SENT ? 4 : 0;
        sum = sum * 31 + blocks[2] + rdsrt_audit_slot(&audit, blocks, count);
        if (rdsrt_receiver_slot(&receiver, blocks, slot % 5 ? count : 0) == RDSRT_CHANGED) {
            rdsrt_receiver_view(&receiver, &view);
            for (int i = 0; i < view.text.length; i++) sum = sum * 31 + view.text.bytes[i];
        }
    }
    *(uint64_t *)answer = sum;
    return answer;
}

int main(int count, char **words) {
    pthread_t threads[THREADS];
    uint64_t answers[THREADS + 1] = {0};
    slots = count > 1 ? atol(words[1]) : 100000;
    if (!work(&answers[THREADS])) return 1;
    for (int i = 0; i < THREADS; i++) {
        if (pthread_create(&threads[i], NULL, work, &answers[i])) return 1;
    }
    for (int i = 0; i < THREADS; i++) {
        if (pthread_join(threads[i], NULL) || answers[i] != answers[THREADS]) return 1;
    }
    puts(answers[THREADS] ? "ok" : "nothing");
    return 0;
}
