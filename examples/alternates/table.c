/* SPDX-License-Identifier: MIT OR Apache-2.0 */
/* The table of the settings. To use other images, change this file and board.h. */
#include <assert.h>

#include "raw.h"
#include "table.h"

#define KIB 1024

/* The bootloader uses the first 24 KiB. The stores use DFU_MEDIUM_SIZE bytes for images of 32 KiB and of 8 KiB. */
enum { FIRMWARE_AT = 24 * KIB, FIRMWARE_LENGTH = DFU_MEDIUM_SIZE(UNIT, SECTOR, 32 * KIB) };
enum { RADIO_AT = 96 * KIB, RADIO_LENGTH = DFU_MEDIUM_SIZE(UNIT, SECTOR, 8 * KIB) };
enum { SCRATCH_AT = 120 * KIB, SCRATCH_LENGTH = 8 * KIB };

#define IS_PLACE(name) (name##_AT % SECTOR == 0 && name##_LENGTH % SECTOR == 0 && name##_AT + name##_LENGTH <= PART)
#define APART(one, other) (one##_AT + one##_LENGTH <= other##_AT || other##_AT + other##_LENGTH <= one##_AT)
static_assert(IS_PLACE(FIRMWARE) && IS_PLACE(RADIO) && IS_PLACE(SCRATCH), "a place is whole sectors of the part");
static_assert(FIRMWARE_AT >= 24 * KIB && RADIO_AT >= 24 * KIB && SCRATCH_AT >= 24 * KIB, "the bootloader is no place");
static_assert(APART(FIRMWARE, RADIO) && APART(FIRMWARE, SCRATCH) && APART(RADIO, SCRATCH), "two places overlap");
static_assert(BLOCK % UNIT == 0 && BLOCK <= SECTOR && SECTOR % UNIT == 0, "the raw area takes whole units, and one erase for each block");

static const struct place firmware_place = {FIRMWARE_AT, FIRMWARE_LENGTH};
static const struct place radio_place = {RADIO_AT, RADIO_LENGTH};
static const struct place scratch_place = {SCRATCH_AT, SCRATCH_LENGTH};

const struct dfu_config shared_config = {
    .version = DFU_VERSION,
    .vendor = 0x1209,
    .product = 0x0001,
    .device = 0x0100,
    .attributes = DFU_CAN_DNLOAD | DFU_CAN_UPLOAD | DFU_MANIFESTATION_TOLERANT,
    .interface_number = INTERFACE,
    .detach_ms = 1000,
    .transfer = BLOCK,
    .busy_ms = 1,
    .manifest_ms = 0,
    .least = 8,
    .unit = UNIT,
    .sector = SECTOR,
    .erase_ms = 20,
    .program_ms = 7,
};

static int is_inside(const struct place *place, uint32_t at, uint32_t length) {
    return length <= place->length && at <= place->length - length;
}

int place_erase(void *own, uint32_t at, uint32_t length) {
    const struct place *place = own;
    return !is_inside(place, at, length) || part_erase(place->at + at);
}

int place_program(void *own, uint32_t at, const uint8_t *bytes, uint32_t length) {
    const struct place *place = own;
    return !is_inside(place, at, length) || part_program(place->at + at, bytes, length);
}

static const struct dfu_driver firmware_driver = {(void *)&firmware_place, place_erase, place_program};
static const struct dfu_driver radio_driver = {(void *)&radio_place, place_erase, place_program};
static uint8_t firmware_block[DFU_BLOCK_SIZE(BLOCK, UNIT)], radio_block[DFU_BLOCK_SIZE(BLOCK, UNIT)], scratch_block[BLOCK];
static struct dfu_device firmware = {.config = &shared_config,
                                     .flash = part + FIRMWARE_AT,
                                     .size = FIRMWARE_LENGTH,
                                     .block = firmware_block,
                                     .most = sizeof firmware_block,
                                     .driver = &firmware_driver};
static struct dfu_device radio = {.config = &shared_config,
                                  .flash = part + RADIO_AT,
                                  .size = RADIO_LENGTH,
                                  .block = radio_block,
                                  .most = sizeof radio_block,
                                  .driver = &radio_driver};
static struct raw scratch = {.place = &scratch_place, .block = scratch_block};

const struct setting setting_table[SETTINGS] = {
    {"firmware", &firmware_place, &firmware, NULL},
    {"radio", &radio_place, &radio, NULL},
    {"scratch, no promise", &scratch_place, NULL, &scratch},
};
