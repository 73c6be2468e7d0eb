/* SPDX-License-Identifier: MIT OR Apache-2.0 */
/* A device on flash with sectors receives a download in three blocks. valgrind measures the second one: from its DNLOAD until it is in the
 * flash, and a GETSTATUS reported that. */
#include <string.h>

#include "dfu_device_memory.h"

enum { BLOCK = 64, UNIT = 16, SECTOR = 1024 };

static const struct dfu_config config = {.version = DFU_VERSION,
                                         .vendor = 0x1209,
                                         .product = 1,
                                         .device = 0x0100,
                                         .attributes = DFU_CAN_DNLOAD | DFU_MANIFESTATION_TOLERANT,
                                         .detach_ms = 255,
                                         .transfer = BLOCK,
                                         .busy_ms = 5,
                                         .least = 1,
                                         .unit = UNIT,
                                         .sector = SECTOR};
static uint8_t flash[DFU_MEDIUM_SIZE(UNIT, SECTOR, 4096)], image[3 * BLOCK], block[DFU_BLOCK_SIZE(BLOCK, UNIT)], data[BLOCK];
static const struct dfu_driver driver = DFU_MEMORY_DRIVER(flash);
static struct dfu_device device = {
    .config = &config, .flash = flash, .size = sizeof flash, .block = block, .most = sizeof block, .driver = &driver};

static int32_t request(uint8_t kind, uint8_t number, uint16_t value, uint16_t length)
{
    const uint8_t setup[8] = {kind, number, (uint8_t)value, 0, 0, 0, (uint8_t)length, 0};
    return dfu_device_serve(&device, setup, data, data, sizeof data);
}

/* Sends a block and the poll that starts its time, writes the block after the answer, and sends the next poll. Returns 1 on success. */
static int send(uint16_t number)
{
    memcpy(data, image + number * BLOCK, BLOCK);
    if (request(0x21, DFU_DNLOAD, number, BLOCK) != 0 || request(0xa1, DFU_GETSTATUS, 0, 6) != 6 || data[4] != DFU_STATE_DNBUSY)
        return 0;
    return dfu_device_work(&device) == 0 && request(0xa1, DFU_GETSTATUS, 0, 6) == 6 && data[4] == DFU_STATE_DNLOAD_IDLE;
}

int second_block(void)
{
    return send(1);
}

int main(void)
{
    for (size_t i = 0; i < sizeof image; i++)
        image[i] = (uint8_t)(i * 7 + 1);
    if (dfu_device_format(&device, image, 2) != 0 || dfu_device_begin(&device) != 0)
        return 1;
    if (!send(0) || !second_block() || !send(2))
        return 1;
    /* Checks that the second block is in the spare slot. */
    for (size_t at = 0; at + sizeof image <= sizeof flash; at += UNIT)
        if (memcmp(flash + at + BLOCK, image + BLOCK, 2 * BLOCK) == 0)
            return 0;
    return 1;
}
