/* SPDX-License-Identifier: MIT OR Apache-2.0 */
/* A bootloader on NOR flash, such as an external QSPI part that is mapped for reading, or a microcontroller's own flash. The flash is
 * programmed in pages of 256 bytes, after an erase of its sectors of 4,096. The part is a model here: programming only clears bits, and
 * fails for a page that was programmed after the last erase of its sector. A part that was never written is formatted; a damaged one stays
 * unchanged. Then the example plays a host that installs an image of 5,000 bytes. Each transfer prints its request, the answer and the
 * state; each erase and each program operation prints its offset. */
#include <stdio.h>
#include <string.h>

#include "dfu_device.h"

enum { PAGE = 256, SECTOR = 4096, CAPACITY = 2 * SECTOR, BLOCK = 1024, IMAGE = 5000 };

/* Maximum times of the part for an erase and a program, in milliseconds. */
enum { ERASE_MS = 45, PROGRAM_MS = 3 };

static const struct dfu_config config = {
    .version = DFU_VERSION,
    .device = 0x0100,
    .product = 1,
    .vendor = 0x1209,
    .detach_ms = 255,
    .transfer = BLOCK,
    .attributes = DFU_CAN_DNLOAD | DFU_CAN_UPLOAD | DFU_MANIFESTATION_TOLERANT,
    .interface_number = 0,
    .busy_ms = DFU_BLOCK_ERASES(BLOCK, SECTOR) * ERASE_MS + DFU_BLOCK_PROGRAMS(BLOCK) * PROGRAM_MS,
    .manifest_ms = DFU_COMMIT_ERASES(SECTOR) * ERASE_MS + DFU_COMMIT_PROGRAMS * PROGRAM_MS, /* 0 for fwupd: see dfu_device.h */
    .least = 1,
    .unit = PAGE,
    .sector = SECTOR,
};

/* The part. The gate and the header of each of the two slots have a sector of their own. The library only reads it here. */
static uint8_t part[DFU_MEDIUM_SIZE(PAGE, SECTOR, CAPACITY)];
static uint8_t is_programmed[sizeof part / PAGE];

/* The driver. Both functions return 0 on success, or 1 if the part failed. */
static int erase(void *own, uint32_t at, uint32_t length) {
    uint8_t *bytes = own;
    printf("    erase   %5u\n", (unsigned)at);
    memset(bytes + at, 0xff, length);
    memset(is_programmed + at / PAGE, 0, length / PAGE);
    return 0;
}

static int program(void *own, uint32_t at, const uint8_t *from, uint32_t length) {
    uint8_t *bytes = own;
    printf("    program %5u, %u bytes\n", (unsigned)at, (unsigned)length);
    for (uint32_t i = 0; i < length; i++)
        bytes[at + i] &= from[i];
    return is_programmed[at / PAGE]++ != 0;
}

/* RAM, whose contents may be lost with the power. */
static uint8_t block[DFU_BLOCK_SIZE(BLOCK, PAGE)], data[BLOCK], image[IMAGE];
static const struct dfu_driver driver = {part, erase, program};
static struct dfu_device dfu = {
    .config = &config, .flash = part, .size = sizeof part, .block = block, .most = sizeof block, .driver = &driver};

/* Prints an answer and the state. If the application runs, prints its length and its offset in the part. */
static void show(const char *what, int32_t answer) {
    struct dfu_place place;
    printf("%-10s %2d state %d\n", what, (int)answer, (int)dfu_device_state(&dfu));
    if (dfu_device_state(&dfu) == DFU_STATE_APP_IDLE && dfu_device_image(&dfu, &place) == 0)
        printf("application of %u bytes at %u\n", (unsigned)place.length, (unsigned)place.at);
}

/* Does the pending work after an answer was sent. */
static void work(void) {
    const int32_t refused = dfu_device_work(&dfu);
    if (refused != 0)
        show("work", refused);
}

/* A control transfer as a USB stack delivers it: data holds the whole data stage. After the answer the device does the work. */
static void transfer(const char *what, uint8_t kind, uint8_t request, uint16_t value, uint16_t length) {
    const uint8_t setup[8] = {kind, request, (uint8_t)value, (uint8_t)(value >> 8), 0, 0, (uint8_t)length, (uint8_t)(length >> 8)};
    show(what, dfu_device_serve(&dfu, setup, data, data, sizeof data));
    work();
}

/* Sends GETSTATUS twice, as a host does that polls once more after the poll time of the first answer. */
static void poll(void) {
    transfer("GETSTATUS", 0xa1, DFU_GETSTATUS, 0, 6);
    transfer("GETSTATUS", 0xa1, DFU_GETSTATUS, 0, 6);
}

static void download(void) {
    uint16_t number = 0;
    for (size_t at = 0; at < sizeof image; at += BLOCK) {
        size_t length = sizeof image - at < BLOCK ? sizeof image - at : BLOCK;
        memcpy(data, image + at, length);
        transfer("DNLOAD", 0x21, DFU_DNLOAD, number++, (uint16_t)length);
        poll();
    }
    transfer("DNLOAD", 0x21, DFU_DNLOAD, number, 0);
    poll();
}

int main(void) {
    int32_t n;
    for (size_t i = 0; i < sizeof image; i++)
        image[i] = (uint8_t)(i * 7);
    /* A new part is erased. */
    memset(part, 0xff, sizeof part);
    n = dfu_device_power_on_or_format(&dfu, image, 2);
    if (n == DFU_NO_MEDIUM)
        puts("no image, and the part was written before: nothing is written until somebody asks for a format");
    if (n != 0)
        return 1;
    show("power on", n);
    transfer("DETACH", 0x21, DFU_DETACH, 1000, 0);
    show("bus reset", dfu_device_reset(&dfu));
    download();
    show("bus reset", dfu_device_reset(&dfu));
    show("power on", dfu_device_power_on(&dfu));
    return memcmp(part + sizeof part / 2 + 2 * SECTOR, image, sizeof image) != 0;
}
