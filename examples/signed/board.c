/* SPDX-License-Identifier: MIT OR Apache-2.0 */
#include "board.h"

/* Maximum times on this part: 23 ms for an erase of a page, 3 ms for a program of 64 words. */
enum { ERASE_MS = 23, PROGRAM_MS = 3 };

const struct dfu_config board_config = {
    .version = DFU_VERSION,
    .device = 0x0100,
    .product = 1,
    .vendor = 0x1209,
    .detach_ms = 1000,
    .transfer = TRANSFER,
    .attributes = DFU_CAN_DNLOAD | DFU_CAN_UPLOAD | DFU_MANIFESTATION_TOLERANT,
    .interface_number = 0,
    .busy_ms = DFU_BLOCK_ERASES(TRANSFER, PAGE) * ERASE_MS + DFU_BLOCK_PROGRAMS(TRANSFER) * PROGRAM_MS,
    .manifest_ms = DFU_COMMIT_ERASES(PAGE) * ERASE_MS + DFU_COMMIT_PROGRAMS * PROGRAM_MS,
    .least = 256,
    .unit = UNIT,
    .sector = PAGE,
};

const struct dfu_tries board_tries = {.unit = UNIT, .sector = PAGE, .tries = TRIES};
