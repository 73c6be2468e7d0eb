/* Tests the frames of examples/microcontroller. Each frame is received as it was sent, even after noise. A frame with a changed bit, a lost
 * byte or a lost end is not accepted. For a frame that is longer than the buffer its length is reported. Random bytes do no harm. */
#include <stdio.h>
#include <stdlib.h>
#include <string.h>

#include "frames.h"

static uint8_t line[2 * (FRAME_MOST + 404) + 2], bytes[FRAME_MOST + 400];
static size_t sent;
static uint32_t dice = 1;
static long whole, damaged;

static uint32_t roll(uint32_t sides) {
    dice = dice * 1664525u + 1013904223u;
    return (dice >> 8) % sides;
}

static void put(uint8_t byte) {
    line[sent++] = byte;
}

static void expect(int holds, const char *what) {
    if (!holds) {
        printf("frames: %s\n", what);
        exit(1);
    }
}

/* Returns the number of whole frames in the first `count` bytes of the line. */
static int taken(struct frame *frame, size_t count) {
    int frames = 0;
    for (size_t at = 0; at < count; at++)
        frames += frame_take(frame, line[at]);
    return frames;
}

static size_t make(void) {
    size_t length = roll(4) ? roll(FRAME_MOST - FRAME_HEAD + 1) : roll(sizeof bytes);
    uint8_t of[3] = {0xc0, 0xdb, (uint8_t)roll(256)};
    for (size_t i = 0; i < length; i++)
        bytes[i] = roll(3) ? (uint8_t)roll(256) : of[roll(3)];
    sent = 0;
    frame_send(put, (uint8_t)(1 + roll(6)), (uint8_t)roll(256), bytes, length);
    return length;
}

static void damage(void) {
    size_t at = roll((uint32_t)sent);
    switch (roll(3)) {
    case 0: line[at] ^= (uint8_t)(1u << roll(8)); break;
    case 1: memmove(line + at, line + at + 1, --sent - at); break;
    default: sent = at; break;
    }
}

int main(void) {
    static struct frame frame;
    for (int turn = 0; turn < 20000; turn++) {
        size_t length = make(), kept = length < FRAME_MOST - FRAME_HEAD ? length : FRAME_MOST - FRAME_HEAD;
        expect(taken(&frame, sent) == 1, "a frame is not taken");
        expect(frame.length == FRAME_HEAD + length && memcmp(frame.bytes + FRAME_HEAD, bytes, kept) == 0, "it is another one");
        whole++;
        damage();
        memset(&frame, 0, sizeof frame);
        expect(taken(&frame, sent) == 0, "a damaged frame is taken");
        damaged++;
        for (uint32_t noise = roll(300); noise > 0; noise--)
            frame_take(&frame, (uint8_t)roll(256));
        frame_take(&frame, 0xc0);
        expect(frame.count <= 0xffff && frame.length <= 0xffff, "a length that is none");
    }
    memset(&frame, 0, sizeof frame);
    for (long any = 0; any < 3000000; any++)
        if (frame_take(&frame, (uint8_t)(roll(40) ? roll(256) : 0xc0)) && frame.length < FRAME_HEAD)
            expect(0, "a frame without its head");
    printf("frames: %ld whole, %ld damaged\n", whole, damaged);
    return 0;
}
