/* SPDX-License-Identifier: MIT OR Apache-2.0 */
/* A bootloader whose new images run on trial, with three tries. A NOR part, a model here, has two slots in sectors of 4,096 bytes. The
 * first image is written as a confirmed one. The second never confirms itself, so the first runs again; the third confirms itself. Each
 * mark and each erase of a gate prints its offset. */
#include <stdio.h>
#include <string.h>

#include "dfu_trial.h"

enum { PAGE = 256, SECTOR = 4096, CAPACITY = SECTOR, TRANSFER = 256 };

static const struct dfu_config config = {
    .version = DFU_VERSION,
    .device = 0x0100,
    .product = 1,
    .vendor = 0x1209,
    .detach_ms = 255,
    .transfer = TRANSFER,
    .attributes = DFU_CAN_DNLOAD | DFU_MANIFESTATION_TOLERANT,
    .interface_number = 0,
    .least = 1,
    .unit = PAGE,
    .sector = SECTOR,
};
static uint8_t part[DFU_MEDIUM_SIZE(PAGE, SECTOR, CAPACITY)], block[DFU_BLOCK_SIZE(TRANSFER, PAGE)], out[TRANSFER];
static int is_shown;

static int erase(void *own, uint32_t at, uint32_t length) {
    if (is_shown)
        printf("  erase %u\n", (unsigned)at);
    memset((uint8_t *)own + at, 0xff, length);
    return 0;
}

static int program(void *own, uint32_t at, const uint8_t *from, uint32_t length) {
    uint8_t *bytes = own;
    if (is_shown)
        printf("  mark %u\n", (unsigned)at);
    for (uint32_t i = 0; i < length; i++)
        bytes[at + i] &= from[i];
    return 0;
}

static const struct dfu_driver driver = {part, erase, program};
static struct dfu_device dfu = {
    .config = &config,
    .flash = part,
    .size = sizeof part,
    .block = block,
    .most = sizeof block,
    .driver = &driver,
};
static const struct dfu_trial trial = {.flash = part, .size = sizeof part, .driver = &driver, .tries = {PAGE, SECTOR, 3}};

/* Runs the bootloader after power-on, and returns the offset of the image that it starts. */
static uint32_t power_on(void) {
    struct dfu_place place = {0, 0};
    is_shown = 1;
    if (dfu_trial_boot(&trial, &place) == 0)
        printf("start %c\n", part[place.at]);
    else
        puts("no image: the bootloader waits for one");
    is_shown = 0;
    return place.at;
}

/* Confirms the application at this offset, as the application itself does when it works. */
static void confirm(uint32_t at) {
    is_shown = 1;
    printf("%c confirms itself: %d\n", part[at], (int)dfu_trial_accept(&trial, at));
    is_shown = 0;
}

static int32_t request(uint8_t kind, uint8_t what, const uint8_t *body, uint8_t length) {
    const uint8_t setup[8] = {kind, what, 0, 0, 0, 0, length, 0};
    if (dfu_trial_transfer(&trial, &dfu, setup) != 0)
        return DFU_STALL;
    return dfu_device_serve(&dfu, setup, body, out, sizeof out);
}

/* Downloads an image of one letter. */
static void download(char letter) {
    const uint8_t image[1] = {(uint8_t)letter};
    dfu_device_begin(&dfu);
    request(0x21, DFU_DNLOAD, image, 1);
    request(0xa1, DFU_GETSTATUS, image, 6);
    request(0x21, DFU_DNLOAD, image, 0);
    request(0xa1, DFU_GETSTATUS, image, 6);
    dfu_device_reset(&dfu);
    printf("%c is put in place\n", letter);
}

int main(void) {
    memset(part, 0xff, sizeof part);
    power_on();
    /* The first image must be confirmed, because else the second one would not run on trial. */
    if (dfu_trial_format(&trial, &dfu, (const uint8_t *)"A", 1) != 0)
        return 1;
    power_on();
    download('B');
    for (int i = 0; i < 5; i++)
        power_on();
    download('C');
    confirm(power_on());
    power_on();
    download('D');
    power_on();
    download('E');
    power_on();
    return 0;
}
