/* SPDX-License-Identifier: MIT OR Apache-2.0 */
/* The serial line to the device: a socket to which QEMU connects. */
#ifndef LINK_H
#define LINK_H
#include <stddef.h>
#include <stdint.h>

/* Results of a frame that was sent. */
enum link_outcome {
    LINK_ANSWERED,
    LINK_STALLED,
    LINK_SILENT, /* no answer arrived in time */
    LINK_GONE    /* the device is gone */
};

/* Begins to listen at a path. Returns 0, or -1 with the reason in errno. */
int link_listen(const char *path);

/* Waits for a device. Returns 0, or -1 if none connects within `ms` milliseconds. */
int link_accept(int ms);

/* Sends a frame and waits for its answer, at most `ms` milliseconds. At most `room` bytes of the answer are kept; `count` is its full
 * length. Text of the image is printed meanwhile. */
enum link_outcome link_ask(uint8_t kind, const uint8_t *bytes, size_t length, int ms, uint8_t *answer, size_t room, size_t *count);

/* Lets `ms` milliseconds pass. Returns 0; or -1 if the device leaves. Text of the image is printed meanwhile. */
int link_wait(int ms);

/* Waits until the image sends text, at most `ms` milliseconds. Returns as link_wait does. */
int link_wait_for_text(int ms);

#endif
