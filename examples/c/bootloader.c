/* SPDX-License-Identifier: MIT OR Apache-2.0 */
/* The smallest bootloader: a device whose flash is plain memory. In place of a USB stack the program plays a host that installs an image of
 * four bytes. Each transfer prints its request, the answer and the state. nor_bootloader.c has a driver for flash with sectors. */
#include <stdio.h>
#include <string.h>

#include "dfu_device_memory.h"

static const struct dfu_config config = {
    .version = DFU_VERSION,
    .device = 0x0100,
    .product = 1,
    .vendor = 0x1209,
    .detach_ms = 255,
    .transfer = 64,
    .attributes = DFU_CAN_DNLOAD | DFU_CAN_UPLOAD | DFU_MANIFESTATION_TOLERANT,
    .interface_number = 0,
    .busy_ms = 5,
    .manifest_ms = 0,
    .least = 1,
    .unit = 1,
    .sector = 0,
};

/* Only the flash must keep its contents through a loss of power; the two buffers and the device need not. */
static uint8_t flash[DFU_MEDIUM_SIZE(1, 0, 1024)];
static uint8_t block[DFU_BLOCK_SIZE(64, 1)], data[64];
static const struct dfu_driver driver = DFU_MEMORY_DRIVER(flash);
static struct dfu_device dfu = {
    .config = &config, .flash = flash, .size = sizeof flash, .block = block, .most = sizeof block, .driver = &driver};

/* Prints an answer and the state. If the application runs, prints its length and its first byte. */
static void show(const char *what, int32_t answer) {
    struct dfu_place place;
    printf("%-10s %2d state %d\n", what, (int)answer, (int)dfu_device_state(&dfu));
    if (dfu_device_state(&dfu) == DFU_STATE_APP_IDLE && dfu_device_image(&dfu, &place) == 0)
        printf("application of %u bytes, the first %02x\n", (unsigned)place.length, flash[place.at]);
}

/* Does the pending work after an answer was sent. */
static void work(void) {
    const int32_t refused = dfu_device_work(&dfu);
    if (refused != 0)
        show("work", refused);
}

/* A control transfer as a USB stack delivers it: data holds the whole data stage. After the answer the device does the work. */
static void transfer(const char *what, const uint8_t setup[8]) {
    show(what, dfu_device_serve(&dfu, setup, data, data, sizeof data));
    work();
}

static void detach(void) {
    static const uint8_t setup[8] = {0x21, DFU_DETACH, 0xe8, 3, 0, 0, 0, 0};
    transfer("DETACH", setup);
}

static void download(uint8_t number, const char *bytes, uint8_t length) {
    const uint8_t setup[8] = {0x21, DFU_DNLOAD, number, 0, 0, 0, length, 0};
    memcpy(data, bytes, length);
    transfer("DNLOAD", setup);
}

static void get_status(void) {
    static const uint8_t setup[8] = {0xa1, DFU_GETSTATUS, 0, 0, 0, 0, 6, 0};
    transfer("GETSTATUS", setup);
}

int main(void) {
    /* New memory such as FRAM may hold any bytes, so a program can't recognize it as new: the factory writes the first image. */
    if (dfu_device_format(&dfu, (const uint8_t *)"\x11\x22", 2) != 0)
        return 1;
    /* From here on the program runs as at each power-on. It tries twice, because a byte that was misread once may read correctly the second
     * time. If the flash is damaged, it stays unchanged. */
    if (dfu_device_power_on(&dfu) != 0 && dfu_device_power_on(&dfu) != 0) {
        puts("no image: nothing is written until somebody asks for a format");
        return 1;
    }
    show("power on", 0);
    detach();
    show("bus reset", dfu_device_reset(&dfu));
    download(0, "\xaa\xbb\xcc\xdd", 4);
    get_status();
    get_status();
    download(1, "", 0);
    get_status();
    show("bus reset", dfu_device_reset(&dfu));
    show("power on", dfu_device_power_on(&dfu));
    return 0;
}
