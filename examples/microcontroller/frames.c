/* SPDX-License-Identifier: MIT OR Apache-2.0 */
#include "frames.h"

enum { END = 0xc0, ESCAPE = 0xdb, ESCAPED_END = 0xdc, ESCAPED_ESCAPE = 0xdd };

/* CRC-16 with the polynomial 1021h and the initial value FFFFh, high bit first. Over a frame with its check sum it is 0. */
static uint16_t check_of(uint16_t check, uint8_t byte) {
    check = (uint16_t)(check ^ byte << 8);
    for (int bit = 0; bit < 8; bit++)
        check = (uint16_t)(check & 0x8000 ? check << 1 ^ 0x1021 : check << 1);
    return check;
}

static void keep(struct frame *frame, uint8_t byte) {
    if (frame->count < FRAME_MOST)
        frame->bytes[frame->count] = byte;
    if (frame->count < 0xffff)
        frame->count++;
    else
        frame->is_bad = 1;
    frame->check = check_of(frame->check, byte);
}

/* Ends a frame, or a run of noise, and begins the next one. Returns 1 if the frame is whole. */
static int end(struct frame *frame) {
    int is_whole = frame->is_open && !frame->is_bad && !frame->is_escaped && frame->count >= FRAME_HEAD + 2 && frame->check == 0;
    frame->length = is_whole ? frame->count - 2 : 0;
    frame->is_open = 1;
    frame->count = frame->is_bad = frame->is_escaped = 0;
    frame->check = 0xffff;
    return is_whole;
}

int frame_take(struct frame *frame, uint8_t byte) {
    if (byte == END)
        return end(frame);
    if (frame->is_escaped) {
        frame->is_escaped = 0;
        if (byte == ESCAPED_END)
            keep(frame, END);
        else if (byte == ESCAPED_ESCAPE)
            keep(frame, ESCAPE);
        else
            frame->is_bad = 1;
    } else if (byte == ESCAPE) {
        frame->is_escaped = 1;
    } else {
        keep(frame, byte);
    }
    return 0;
}

static void put_escaped(void (*put)(uint8_t), uint8_t byte) {
    if (byte == END || byte == ESCAPE) {
        put(ESCAPE);
        put(byte == END ? ESCAPED_END : ESCAPED_ESCAPE);
    } else {
        put(byte);
    }
}

void frame_send(void (*put)(uint8_t), uint8_t kind, uint8_t number, const uint8_t *bytes, size_t length) {
    uint16_t check = check_of(check_of(0xffff, kind), number);
    put(END);
    put_escaped(put, kind);
    put_escaped(put, number);
    for (size_t i = 0; i < length; i++) {
        put_escaped(put, bytes[i]);
        check = check_of(check, bytes[i]);
    }
    put_escaped(put, (uint8_t)(check >> 8));
    put_escaped(put, (uint8_t)check);
    put(END);
}
