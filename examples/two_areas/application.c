/* SPDX-License-Identifier: MIT OR Apache-2.0 */
/* An image that is linked for the first slot. The old image downloads the new one while it runs, and stalls a download that would overwrite
 * the old image (dfu_home_transfer). The new image does nothing. The program itself plays the host: it makes the calls of a USB stack. */
#include <string.h>

#include "board.h"

#if NUMBER == OLD_NUMBER
/* The program runs from the first slot, so its driver refuses operations there. */
static int guarded_erase(void *own, uint32_t at, uint32_t length) {
    return at < SIZE / 2 ? 1 : flash_erase(own, at, length);
}

static int guarded_program(void *own, uint32_t at, const uint8_t *bytes, uint32_t length) {
    return at < SIZE / 2 ? 1 : flash_program(own, at, bytes, length);
}

static const struct dfu_driver driver = {0, guarded_erase, guarded_program};
static uint8_t block[DFU_BLOCK_SIZE(BLOCK, UNIT)], data[BLOCK];
static struct dfu_device device = {
    .config = &board_config, .flash = (const uint8_t *)FLASH, .size = SIZE, .block = block, .most = sizeof block, .driver = &driver};

/* Handles a request of the class, as the stack passes it in. Returns a negative number to stall endpoint 0. */
static int32_t on_request(const uint8_t setup[8]) {
    const int32_t n = dfu_home_transfer(&device, setup);
    return n != 0 ? n : dfu_device_serve(&device, setup, data, data, sizeof data);
}

static int32_t request(uint8_t type, uint8_t what, uint32_t value, uint32_t length) {
    const uint8_t setup[8] = {type, what, (uint8_t)value, (uint8_t)(value >> 8), 0, 0, (uint8_t)length, (uint8_t)(length >> 8)};
    return on_request(setup);
}

static void status(uint8_t state) {
    if (request(0xa1, DFU_GETSTATUS, 0, 6) != 6 || data[0] != 0 || data[4] != state)
        board_stop("a status of the download", 1);
}

static void take(const uint8_t *file, uint32_t length) {
    uint32_t number = 0;
    if (dfu_device_begin(&device) != 0)
        board_stop("the device does not begin", 1);
    for (uint32_t at = 0; at < length; at += BLOCK, number++) {
        const uint32_t some = length - at < BLOCK ? length - at : BLOCK;
        memcpy(data, file + at, some);
        if (request(0x21, DFU_DNLOAD, number, some) != 0)
            board_stop("a block of the download", 1);
        status(DFU_STATE_DNLOAD_IDLE);
    }
    if (request(0x21, DFU_DNLOAD, number, 0) != 0)
        board_stop("the close of the download", 1);
    status(DFU_STATE_IDLE);
    /* The new image is in the second slot now, so another download would erase this program. */
    if (request(0x21, DFU_DNLOAD, 0, 16) != DFU_NOT_HOME)
        board_stop("a second download is taken", 1);
    world.refusals = world.refusals + 1;
}
#endif

int main(void) {
    world.ran = NUMBER;
#if NUMBER == OLD_NUMBER
    if (!world.has_taken) {
        world.has_taken = 1;
        take(NEW_FILE, world.new_length);
        board_reset();
    }
#endif
    world.phase = PHASE_ENDED;
    board_reset();
    return 0;
}
