/* Runs whole random sessions of the host library: downloads, verified downloads, and uploads. The device mostly answers correctly for its
 * state; sometimes it stalls, leaves, restarts, sends random bytes, or sends back other bytes than it received. The program prints a digest
 * of all answers, records, actions and buffers, so that two builds of the library can be compared, and the count of each report. Arguments:
 * the number of sessions, and a seed. */
#include <stdio.h>
#include <stdlib.h>
#include <string.h>

#include "dfu_host.h"

#define MOST 600 /* bytes of a payload */

static uint64_t dice;
static uint32_t sum = 2166136261u;
static uint8_t file[MOST + 300], buffer[MOST + 300], answer[4200];
static long reports[12], refused;

static uint32_t roll(uint32_t sides) {
    dice ^= dice << 13, dice ^= dice >> 7, dice ^= dice << 17;
    return (uint32_t)(dice >> 16) % sides;
}

static void add(const void *bytes, size_t length) {
    for (const uint8_t *at = bytes; length--; at++)
        sum = (sum ^ *at) * 16777619u;
}

static void put16(uint8_t *at, uint32_t number) {
    at[0] = (uint8_t)number, at[1] = (uint8_t)(number >> 8);
}

/* Makes a file with a suffix (USB DFU 1.1, appendix B), for the device 1209:0001 or for any. One of twenty has a wrong bit in its suffix,
 * and one of forty a wrong CRC. Returns its length. */
static size_t make_file(size_t payload) {
    uint32_t crc = 0xffffffffu, suffix = roll(4) ? 16 : 16 + roll(240);
    size_t length = payload + suffix;
    for (size_t at = 0; at < length; at++)
        file[at] = (uint8_t)roll(256);
    uint8_t *end = file + length - 16;
    put16(end, roll(2) ? 0xffff : 0x0100), put16(end + 2, roll(2) ? 0xffff : 1), put16(end + 4, roll(3) ? 0xffff : 0x1209);
    put16(end + 6, 0x0100), memcpy(end + 8, "UFD", 3), end[11] = (uint8_t)suffix;
    if (roll(20) == 0) {
        uint32_t at = roll(12), bit = roll(8);
        end[at] ^= (uint8_t)(1 << bit);
    }
    for (size_t at = 0; at < length - 4; at++) {
        crc ^= file[at];
        for (int bit = 0; bit < 8; bit++)
            crc = crc >> 1 ^ (crc & 1 ? 0xedb88320u : 0);
    }
    put16(end + 12, crc), put16(end + 14, crc >> 16);
    if (roll(40) == 0)
        end[12 + roll(4)] ^= 1;
    return length;
}

/* Makes a functional descriptor of 9 or 7 bytes. One of sixteen has a damaged byte, and one of forty a random length. Returns its length.
 */
static size_t make_descriptor(uint8_t *descriptor, uint32_t transfer) {
    size_t size = roll(3) ? 9 : 7;
    descriptor[0] = (uint8_t)size, descriptor[1] = 0x21, descriptor[2] = roll(8) ? (uint8_t)(3 | roll(4) << 2) : (uint8_t)roll(16);
    put16(descriptor + 3, roll(1000)), put16(descriptor + 5, transfer), put16(descriptor + 7, 0x0110);
    if (roll(16) == 0) {
        uint32_t at = roll(3);
        descriptor[at] ^= (uint8_t)roll(16);
    }
    return roll(40) ? size : roll(10);
}

/* State of the device: bState, and the number of bytes that it received or sent. */
struct peer {
    uint32_t state, taken, given;
};

/* Answers GETSTATUS (A1h 03h) according to the state, and enters the next state. */
static size_t status_of(struct peer *peer) {
    uint32_t state = peer->state;
    if (state == 3)
        peer->state = state = roll(4) ? 5 : 4;
    else if (state == 4)
        peer->state = state = 5;
    else if (state == 6)
        peer->state = state = roll(3) ? 7 : 2;
    else if (state == 7)
        peer->state = state = roll(3) ? 2 : 8;
    memset(answer, 0, 6);
    answer[0] = state == 10 ? (uint8_t)roll(16) : 0;
    put16(answer + 1, roll(300));
    answer[4] = (uint8_t)state;
    if (roll(60) == 0) {
        uint32_t at = roll(6);
        answer[at] = (uint8_t)roll(256);
    }
    return roll(80) ? 6 : roll(9);
}

/* Carries out an action of the session. Returns its outcome, with the number of answered bytes in `count`. */
static uint32_t act(struct peer *peer, const struct dfu_action *action, size_t payload, size_t *count) {
    uint32_t request = action->setup[1];
    *count = 0;
    if (action->what == DFU_WAIT)
        return DFU_SEEN_WAIT;
    if (action->what == DFU_RESET) {
        peer->state = 2, peer->given = 0;
        return DFU_SEEN_RESET;
    }
    if (action->setup[0] == 0xa1) {
        uint32_t asked = action->setup[6] | (uint32_t)action->setup[7] << 8;
        if (request == 3) {
            *count = status_of(peer);
        } else if (request == 2) {
            size_t left = payload - peer->given;
            *count = left < asked ? left : asked;
            memcpy(answer, file + peer->given, *count);
            peer->given += (uint32_t)*count;
            peer->state = *count < asked ? 2 : 9;
            if (*count != 0 && roll(60) == 0)
                answer[roll((uint32_t)*count)] ^= 1;
        } else {
            answer[0] = (uint8_t)peer->state;
            *count = 1;
        }
        return DFU_SEEN_BYTES;
    }
    if (request == 1) {
        peer->taken += (uint32_t)action->length;
        peer->state = action->length == 0 ? 6 : 3;
    } else if (request == 0) {
        peer->state = 1;
    } else {
        peer->state = 2;
    }
    return roll(50) ? DFU_SEEN_ACK : DFU_SEEN_STALL;
}

static int32_t begin(struct dfu_session *session, uint32_t kind, size_t length, uint32_t transfer) {
    const struct dfu_ids ids = {0x0100, 1, 0x1209};
    uint32_t actions = roll(6) ? 2000 : roll(60);
    uint16_t restarts = (uint16_t)roll(3);
    uint8_t descriptor[9];
    size_t size = make_descriptor(descriptor, transfer);
    if (kind == 0)
        return dfu_host_upload(session, descriptor, size, actions, restarts);
    if (kind == 1)
        return dfu_host_download(session, file, length, descriptor, size, &ids, actions, restarts);
    return dfu_host_verified(session, file, length, descriptor, size, &ids, actions, restarts);
}

static void run(void) {
    static struct dfu_session session;
    struct dfu_file found = {0};
    struct dfu_action action;
    struct peer peer = {roll(4) ? 2 : roll(11), 0, 0};
    uint32_t kind = roll(3), transfer = roll(8) ? 1 + roll(200) : roll(4200), odd = roll(12) ? 1000 : 1 + roll(30);
    size_t payload = roll(10) ? 1 + roll(MOST) : 0, room = roll(3) ? sizeof buffer : roll(MOST), length = make_file(payload);
    int32_t read = dfu_host_file(file, length, &found), started = begin(&session, kind, length, transfer);
    add(&read, sizeof read), add(&found, sizeof found), add(&started, sizeof started);
    if (started != 0) {
        refused++;
        return;
    }
    memset(buffer, 0x5a, sizeof buffer);
    size_t owed = kind == 0 ? 0 : payload;
    for (uint32_t step = 0; step < 3000; step++) {
        memset(&action, 0, sizeof action);
        int32_t next = dfu_host_next(&session, file, owed, &action);
        size_t count;
        add(&next, sizeof next), add(&action, sizeof action), add(&session, sizeof session);
        if (next != 0 || action.what == DFU_DONE)
            break;
        uint32_t seen = act(&peer, &action, payload, &count);
        if (roll(odd) == 0) {
            seen = roll(9);
            if (seen >= DFU_SEEN_RESTART)
                peer.state = roll(2) ? 2 : 0;
        }
        int32_t took = step == odd ? dfu_host_abort(&session, file, owed)
                                   : dfu_host_take(&session, file, owed, buffer, kind == 0 ? room : 0, seen, answer, count);
        add(&took, sizeof took);
    }
    add(buffer, sizeof buffer);
    if (action.what == DFU_DONE && action.value < 12)
        reports[action.value]++;
}

int main(int words, char **word) {
    long sessions = words > 1 ? atol(word[1]) : 1000;
    dice = words > 2 ? (uint64_t)atol(word[2]) * 0x9e3779b97f4a7c15u | 1 : 1;
    for (long k = 1; k <= sessions; k++) {
        run();
        if (k % 1000 == 0 || k == sessions)
            printf("%ld %08lx\n", k, (unsigned long)sum);
    }
    printf("reports");
    for (int k = 0; k < 12; k++)
        printf(" %ld", reports[k]);
    printf("; %ld refused\n", refused);
    return 0;
}
