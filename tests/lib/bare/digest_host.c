/* Calls the host library with garbled records, payloads and buffers, and prints a digest after each 10,000 calls, so that two builds of the
 * library can be compared. Arguments: the number of calls, and the offset of each buffer from an aligned address. */
#include <stdio.h>
#include <stdlib.h>
#include <string.h>

#include "dfu_host.h"

static uint64_t dice = 1;
static uint32_t sum = 2166136261u;

static uint64_t any(void) {
    dice ^= dice << 13, dice ^= dice >> 7, dice ^= dice << 17;
    return dice;
}

/* Returns a random number, which is often small. */
static uint64_t some(void) {
    return any() % 4 ? any() % 30 : any();
}

static void add(const void *bytes, size_t length) {
    for (const uint8_t *at = bytes; length--; at++)
        sum = (sum ^ *at) * 16777619u;
}

static void roll_session(struct dfu_session *s) {
    memset(s, 0, sizeof *s);
    s->version = any() % 16 ? DFU_VERSION : (uint32_t)some();
    s->number = some(), s->kept = some();
    s->goal = (uint32_t)(any() % 6), s->phase = (uint32_t)(any() % 27), s->more = (uint32_t)some(), s->actions = (uint32_t)some();
    s->restarts = (uint16_t)some(), s->transfer = (uint16_t)some(), s->detach_ms = (uint16_t)some();
    s->tolerant = (uint8_t)(any() % 3), s->will_detach = (uint8_t)(any() % 3);
}

int main(int words, char **word) {
    static uint8_t rooms[3][72] __attribute__((aligned(8)));
    long calls = words > 1 ? atol(word[1]) : 1000, odd = words > 2 ? atol(word[2]) : 0, answered = 0, refused = 0;
    uint8_t *payload = rooms[0] + odd, *room = rooms[1] + odd, *bytes = rooms[2] + odd;
    for (long call = 1; call <= calls; call++) {
        struct dfu_session session;
        struct dfu_action action;
        roll_session(&session);
        memset(&action, 0, sizeof action);
        for (int at = 0; at < 64; at++)
            payload[at] = (uint8_t)any(), bytes[at] = (uint8_t)some(), room[at] = 0x5a;
        size_t length = any() % 64, size = any() % 64, count = any() % 64;
        uint32_t seen = (uint32_t)(any() % 9);
        int32_t next = dfu_host_next(&session, payload, length, &action);
        int32_t answer = call % 8 ? dfu_host_take(&session, payload, length, room, size, seen, bytes, count)
                                  : dfu_host_abort(&session, payload, length);
        add(&next, sizeof next), add(&answer, sizeof answer), add(&session, sizeof session), add(room, 64);
        if (next == 0)
            add(&action, sizeof action);
        answer < 0 ? refused++ : answered++;
        if (call % 10000 == 0 || call == calls)
            printf("%ld %08lx\n", call, (unsigned long)sum);
    }
    printf("%ld answered, %ld refused\n", answered, refused);
    return answered == 0 || refused == 0;
}
