/* SPDX-License-Identifier: MIT OR Apache-2.0 */
/* A raw area, which is overwritten in place: IT HAS NO PROMISE. A loss of power leaves some of the new bytes, some of the old ones, and a
 * sector with any bytes; nothing on the part shows this afterwards. Store only data here that the firmware can do without. */
#ifndef RAW_H
#define RAW_H

#include "table.h"

struct raw {
    const struct place *place;
    uint8_t *block;        /* BLOCK bytes, which hold a block until it is written */
    uint32_t at;           /* bytes that were written or sent so far */
    uint16_t number, held; /* the number of the next block, and the bytes of the block to write */
    uint8_t state, status; /* enum dfu_state, enum dfu_status */
};

/* Enters dfuIDLE. Bytes that a download wrote remain on the part. */
void raw_begin(struct raw *r);

/* Handles a bus reset: enters appIDLE. */
void raw_reset(struct raw *r);

/* Answers a request of the class as dfu_device_serve does: returns the number of bytes of out, or DFU_STALL. A body of more than BLOCK
 * bytes is not read. A block is written during GETSTATUS, so bwPollTimeout is 0, and no work follows the answer. */
int32_t raw_serve(struct raw *r, const uint8_t setup[8], const uint8_t *body, uint8_t *out);

#endif
