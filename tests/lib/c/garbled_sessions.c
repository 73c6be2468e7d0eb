/* Makes calls with garbled records, payloads and buffers; the first argument is their number. Each must return an answer or a refusal, and
 * store a part of an upload, or find no room for it, as dfu_host.h describes. */
#include <stdio.h>
#include <stdlib.h>
#include <string.h>

#include "dfu_host.h"

static uint64_t seed = 1;
static long stored, full;

static uint64_t any(void) {
    seed ^= seed << 13, seed ^= seed >> 7, seed ^= seed << 17;
    return seed;
}

/* Returns a random number, which is often small. */
static uint64_t some(void) {
    return any() % 4 ? any() % 30 : any();
}

/* Returns 1 if record and buffer are as expected after an answered call with these bytes. `size` of the buffer's 64 bytes belong to the
 * session, and all of them were 5Ah before. */
static int follows(const struct dfu_session *before, const struct dfu_session *now, const uint8_t *room, size_t size, uint32_t seen,
                   const uint8_t *bytes, size_t count) {
    uint64_t from = before->number ? before->kept : 0, kept = before->kept;
    int is_part = before->phase == 18 && seen == DFU_SEEN_BYTES, is_no_memory = 0;
    uint8_t wanted[64];
    memset(wanted, 0x5a, sizeof wanted);
    if (is_part && (count < before->transfer || (count == before->transfer && before->number != 65534))) {
        is_no_memory = from + count > size;
        if (!is_no_memory) {
            memcpy(wanted + from, bytes, count);
            kept = from + count;
        }
        is_no_memory ? full++ : stored++;
    }
    if (before->phase == 18 && (now->phase == 23 && now->number == DFU_NO_MEMORY) != is_no_memory)
        return 0;
    return now->kept == kept && !memcmp(room, wanted, sizeof wanted);
}

int main(int words, char **word) {
    long calls = words > 1 ? atol(word[1]) : 1000, answered = 0, refused = 0;
    for (long call = 0; call < calls; call++) {
        uint8_t payload[64], room[64], bytes[64];
        int is_part = call % 4 == 1; /* every fourth call is for a part of an upload */
        uint32_t version = any() % 16 ? DFU_VERSION : (uint32_t)some(), goal = is_part ? 2 : (uint32_t)(any() % 6);
        uint32_t phase = is_part ? 18 : (uint32_t)(any() % 27);
        struct dfu_session s = {version, goal, some(), some(), phase, (uint32_t)some(),
                                (uint32_t)some(), (uint16_t)some(), (uint16_t)some(), (uint16_t)some(), any() % 3, any() % 3}, old = s;
        struct dfu_action a;
        for (int at = 0; at < 64; at++)
            payload[at] = (uint8_t)any(), bytes[at] = (uint8_t)some(), room[at] = 0x5a;
        size_t length = any() % 64, size = any() % 64, count = any() % 64;
        uint32_t seen = is_part ? DFU_SEEN_BYTES : call % 8 ? (uint32_t)(any() % 9) : DFU_SEEN_NOTHING;
        int32_t next = dfu_host_next(&s, payload, length, &a);
        if (next == 0 && a.what == DFU_SEND && a.from + a.length > length) {
            printf("a body behind the payload\n");
            return 1;
        }
        int32_t answer = call % 8 ? dfu_host_take(&s, payload, length, room, size, seen, bytes, count)
                                  : dfu_host_abort(&s, payload, length);
        if (answer < 0 ? memcmp(&s, &old, sizeof s) != 0 : version != DFU_VERSION) {
            printf("a refusal changed a record, or another version was taken\n");
            return 1;
        }
        if (!follows(&old, answer < 0 ? &old : &s, room, size, answer < 0 ? DFU_SEEN_NOTHING : seen, bytes, count)) {
            printf("another buffer, or another report\n");
            return 1;
        }
        if (answer == 0 && dfu_host_next(&s, payload, length, &a) != 0) {
            printf("a record that is none\n");
            return 1;
        }
        answer < 0 ? refused++ : answered++;
    }
    printf("%ld answered, %ld refused; %ld parts stored, %ld without room\n", answered, refused, stored, full);
    return answered == 0 || refused == 0 || (calls >= 100000 && (stored == 0 || full == 0));
}
