/* SPDX-License-Identifier: MIT OR Apache-2.0 */
/* Carries out the host's actions, and translates libusb's result of each action into the host's terms. */
#ifndef DFU_FLASH_ANSWER_H
#define DFU_FLASH_ANSWER_H

#include "device.h"
#include "trace.h"

#include <dfu_host.h>
#include <stdbool.h>
#include <stddef.h>
#include <stdint.h>

struct answer {
    uint32_t seen;        /* DFU_SEEN_ACK to DFU_SEEN_LEFT */
    const uint8_t *bytes; /* `count` bytes for DFU_SEEN_BYTES; never NULL */
    size_t count;
    bool is_gone; /* the device left and didn't return, so there is nothing to report */
    int error;    /* libusb's error of a failed transfer or reset, else 0; the host doesn't get it */
};

/* State of the connection, kept from one action to the next. */
struct wire {
    struct device *device;
    bool is_leaving;      /* a DETACH was acknowledged and nothing was sent since, so the device will leave */
    bool is_closed;       /* the end of a download was acknowledged, and only GETSTATUS was sent since */
    bool is_manifesting;  /* is_closed, and a GETSTATUS reported dfuMANIFEST-SYNC or dfuMANIFEST */
    uint8_t bytes[65536]; /* data of one transfer; wLength is at most 65,535 */
    uint64_t transfers;   /* number of transfers that were tried */
    bool is_unreset;      /* the host requested a reset that the system can't make, and the user didn't pull the plug */
    struct trace trace;
};

/* Sends a request of the host. `body` has `action->length` bytes. */
struct answer answer_send(struct wire *wire, const struct dfu_action *action, const uint8_t *body);

/* Waits `ms` milliseconds, as the host requests, or until a stop. */
struct answer answer_wait(struct wire *wire, uint32_t ms);

/* Resets the device, or lets the user pull its plug if the system can't reset it. */
struct answer answer_reset(struct wire *wire);

#endif
