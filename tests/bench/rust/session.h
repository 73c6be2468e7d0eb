/* SPDX-License-Identifier: MIT OR Apache-2.0 */
/* Parameter of a session of tests/bench/rust; package/src/lib.rs declares the same struct. */
#ifndef SESSION_H
#define SESSION_H
#include <stddef.h>
#include <stdint.h>

enum { TRANSFER = 1024, IMAGE = 65536, SUFFIX = 16 };

struct room {
    uint8_t flash[2 * (IMAGE + 4096)];
    uint8_t block[TRANSFER], held[1]; /* C uses the two as one buffer, of the transfer size and a unit */
    uint8_t out[TRANSFER];
    uint8_t file[IMAGE + SUFFIX]; /* the image, and its suffix */
    uint8_t descriptor[9];        /* functional descriptor of the host's device */
};

/* Runs a session. Returns 0, or the number of the step that failed. */
uint32_t session(struct room *room);

/* Serves a request as the device of a host's session. Returns the number of bytes in `answer`, or -1 for a stall. */
int32_t peer_transfer(const uint8_t *setup, const uint8_t *body, size_t length, uint8_t *answer);
void peer_reset(void);
#endif
