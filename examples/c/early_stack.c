/* SPDX-License-Identifier: MIT OR Apache-2.0 */
/* A device under a USB stack that receives and acknowledges the data stage in one step. The device must therefore decide before that step
 * if it will stall the request. The board has no application yet, and begins in dfuIDLE; its DFU interface is interface 2. The program
 * itself plays the host. */
#include <stdio.h>
#include <string.h>

#include "dfu_device_memory.h"

static const struct dfu_config config = {
    .version = DFU_VERSION,
    .device = 0x0100,
    .product = 1,
    .vendor = 0x1209,
    .detach_ms = 255,
    .transfer = 64,
    .attributes = DFU_CAN_DNLOAD | DFU_CAN_UPLOAD | DFU_MANIFESTATION_TOLERANT,
    .interface_number = 2,
    .busy_ms = 5,
    .manifest_ms = 0,
    .least = 1,
    .unit = 1,
    .sector = 0,
};
static uint8_t flash[DFU_MEDIUM_SIZE(1, 0, 1024)];
static const struct dfu_driver driver = DFU_MEMORY_DRIVER(flash);

/* The block's memory, and the single buffer of endpoint 0. */
static uint8_t block[DFU_BLOCK_SIZE(64, 1)], endpoint[64];
static struct dfu_device dfu = {
    .config = &config, .flash = flash, .size = sizeof flash, .block = block, .most = sizeof block, .driver = &driver};

static void show(const char *what, int32_t answer) {
    printf("%-10s %2d state %d\n", what, (int)answer, (int)dfu_device_state(&dfu));
}

/* A DNLOAD. The stack first calls dfu_device_would_stall; then it stalls the setup, or receives the data stage in the buffer. */
static void download(uint8_t number, const char *bytes, uint8_t length) {
    const uint8_t setup[8] = {0x21, DFU_DNLOAD, number, 0, 2, 0, length, 0};
    const int32_t worked = dfu_device_work(&dfu), will_stall = dfu_device_would_stall(&dfu, setup);
    show("work", worked);
    if (will_stall == 0)
        memcpy(endpoint, bytes, length);
    printf("%s\n", will_stall == 0 ? "the data stage is taken" : "the setup is stalled");
    show("DNLOAD", dfu_device_serve(&dfu, setup, endpoint, endpoint, sizeof endpoint));
}

static void ask(const char *what, uint8_t kind, uint8_t request, uint8_t length) {
    const uint8_t setup[8] = {kind, request, 0, 0, 2, 0, length, 0};
    show(what, dfu_device_serve(&dfu, setup, endpoint, endpoint, sizeof endpoint));
}

/* Prints the length and the first byte of the application, or that there is none. */
static void application(void) {
    struct dfu_place place;
    if (dfu_device_image(&dfu, &place) == 0 && place.length > 0)
        printf("application of %u bytes, the first %02x\n", (unsigned)place.length, flash[place.at]);
    else
        printf("no application\n");
}

int main(void) {
    uint8_t descriptor[9];
    if (dfu_core_version() != DFU_VERSION || dfu_device_functional(&config, descriptor) != 9)
        return 1;
    printf("version " DFU_VERSION_TEXT ", descriptor");
    for (size_t at = 0; at < sizeof descriptor; at++)
        printf(" %02x", descriptor[at]);
    printf("\n");
    if (dfu_device_format(&dfu, endpoint, 0) != 0)
        return 1;
    show("begin", dfu_device_begin(&dfu));
    application();
    download(0, "", 65);
    ask("CLRSTATUS", 0x21, DFU_CLRSTATUS, 0);
    download(0, "\xaa\xbb\xcc\xdd", 4);
    ask("GETSTATUS", 0xa1, DFU_GETSTATUS, 6);
    ask("GETSTATUS", 0xa1, DFU_GETSTATUS, 6);
    download(1, "", 0);
    ask("GETSTATUS", 0xa1, DFU_GETSTATUS, 6);
    application();
    return 0;
}
