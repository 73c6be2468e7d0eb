/* SPDX-License-Identifier: MIT OR Apache-2.0 */
/* Control transfers over a serial line instead of USB. A frame is a kind, a number, its bytes and a check sum, between two END bytes, as in
 * SLIP (RFC 1055). The host sends one frame and waits for the answer with the same number. The device does not answer a damaged frame, and
 * the host treats a missing answer as a lost transfer. */
#ifndef FRAMES_H
#define FRAMES_H
#include <stddef.h>
#include <stdint.h>

enum {
    /* Frames from the host. */
    FRAME_SETUP = 1, /* the 8 bytes of a setup, followed by the data stage, if the host sends one */
    FRAME_RESET = 2, /* the bus is reset */
    FRAME_ABOUT = 3, /* request for the device's ids and functional descriptor, which USB reads when a device is connected */
    /* Frames from the device. */
    FRAME_ANSWER = 4, /* the transfer is acknowledged; the bytes are the data of the device, if any */
    FRAME_STALL = 5,
    FRAME_TEXT = 6 /* text of the running image; needs no answer */
};
#define FRAME_HEAD 2 /* bytes of kind and number */
#define FRAME_MOST (FRAME_HEAD + 8 + 256)
#define FRAME_ABOUT_LENGTH 15 /* bcdDevice, idProduct, idVendor, and 9 bytes */

/* A frame that is being received. Its first FRAME_MOST bytes are kept; `length` is its full length. All zeros is the initial state. */
struct frame {
    uint8_t bytes[FRAME_MOST];
    uint32_t length; /* bytes of a whole frame, without its check sum */
    uint32_t count;  /* bytes received of the next frame */
    uint16_t check;  /* CRC over these bytes */
    uint8_t is_open; /* an END byte was received */
    uint8_t is_escaped, is_bad;
};

/* Handles the next byte. Returns 1 if it ends a whole frame, else 0. */
int frame_take(struct frame *frame, uint8_t byte);

/* Sends a frame through `put`, byte by byte. */
void frame_send(void (*put)(uint8_t byte), uint8_t kind, uint8_t number, const uint8_t *bytes, size_t length);

#endif
