/* SPDX-License-Identifier: MIT OR Apache-2.0 */
/* A bootloader whose images are linked for one address. A NOR part, a model here, has two slots and after them a run area, in sectors of
 * 4,096 bytes. The application runs in the run area, and keeps its own data after it. At each power-on the active image is copied to the
 * run area, and started. The example loses power once, in the middle of a program. Each operation prints its offset. */
#include <stdio.h>
#include <string.h>

#include "dfu_install.h"

enum { PAGE = 256, SECTOR = 4096, CAPACITY = 2 * SECTOR, IMAGE = 4500 };

static const struct dfu_config config = {
    .version = DFU_VERSION,
    .device = 0x0100,
    .product = 1,
    .vendor = 0x1209,
    .detach_ms = 255,
    .transfer = 1024,
    .attributes = DFU_CAN_DNLOAD | DFU_MANIFESTATION_TOLERANT,
    .interface_number = 0,
    .least = 1,
    .unit = PAGE,
    .sector = SECTOR,
};

/* The part: the slots, a run area as large as a slot's data, and a sector for the application's data. */
enum { SLOTS = DFU_MEDIUM_SIZE(PAGE, SECTOR, CAPACITY), RUN = SLOTS, OWN = RUN + CAPACITY };
static uint8_t part[OWN + SECTOR];
static int programs_left = 1000, is_on = 1;

/* Drivers of the slots and of the run area. Offsets of the run area count from its first byte. On a board with a watchdog, erase and
 * program must feed the watchdog. */
static int erase(void *own, uint32_t at, uint32_t length) {
    uint8_t *bytes = own;
    if (bytes != part)
        printf("  erase   %u\n", (unsigned)at);
    memset(bytes + at, 0xff, length);
    return 0;
}

static int program(void *own, uint32_t at, const uint8_t *from, uint32_t length) {
    uint8_t *bytes = own;
    if (bytes != part) {
        printf("  program %u\n", (unsigned)at);
        is_on = programs_left-- > 0;
    }
    for (uint32_t i = 0; i < (is_on ? length : 100); i++)
        bytes[at + i] &= from[i];
    return 0;
}

static const struct dfu_driver slots_driver = {part, erase, program}, run_driver = {part + RUN, erase, program};
static struct dfu_device dfu = {.config = &config, .flash = part, .size = SLOTS, .driver = &slots_driver};
static struct dfu_install install = {.run = part + RUN, .size = CAPACITY, .area = {SECTOR, DFU_NOWHERE}, .driver = &run_driver};

/* Runs the bootloader after power-on: it starts the application if the run area holds the whole image. */
static void power_on(void) {
    struct dfu_place place;
    struct dfu_ask ask;
    int32_t n;
    install.area.last = DFU_NOWHERE;
    is_on = 1;
    if (dfu_device_power_on(&dfu) != 0 || dfu_device_image(&dfu, &place) != 0) {
        puts("no image: the bootloader waits for one");
        return;
    }
    /* dfu_install_settle does the same without the stop at a loss of power */
    n = dfu_install_next(&install, part + place.at, place.length, &ask);
    while (n == DFU_WRITE_PENDING) {
        const uint32_t failed = dfu_device_carry_out(install.driver, &ask);
        if (!is_on) {
            puts("the power is lost");
            return;
        }
        dfu_install_took(&install, part + place.at, place.length, &ask, failed);
        n = dfu_install_next(&install, part + place.at, place.length, &ask);
    }
    if (n == 0)
        printf("start: %u bytes, the first is %02Xh\n", (unsigned)place.length, part[RUN]);
    else
        printf("refused: %d, the bootloader waits for another image\n", (int)n);
}

static uint8_t image[CAPACITY];

/* Makes an image active; a product does this by a download, the example by a format. */
static void put_in_place(uint8_t first, size_t length) {
    for (size_t i = 0; i < length; i++)
        image[i] = (uint8_t)(first + i * 7);
    if (dfu_device_format(&dfu, image, length) == 0)
        printf("an image of %u bytes is put in place\n", (unsigned)length);
}

int main(void) {
    memset(part, 0xff, sizeof part);
    memcpy(part + OWN, "the application's own", 22);
    power_on();
    put_in_place(1, IMAGE);
    programs_left = 2;
    power_on();
    programs_left = 1000;
    power_on();
    power_on();
    put_in_place(2, 300);
    power_on();
    put_in_place(0, 0);
    power_on();
    install.size = SECTOR;
    put_in_place(1, IMAGE);
    power_on();
    return memcmp(part + OWN, "the application's own", 22) != 0;
}
