/* Installs two images, one after the other, on a tolerant device and on one that isn't, and cuts power during each call that may write,
 * after each instruction in turn. On each resulting flash the device must start, and its image must be the whole previous one or the whole
 * new one; once the new one was active, the previous one must not return. Then an image can be installed. */
#include <stdio.h>
#include <string.h>

#include "cut.h"
#include "../c/memory.h"

#define IMAGE 150 /* bytes, in blocks of 100 */

static struct dfu_config config = {
    .version = DFU_VERSION, .device = 0x0100, .product = 1, .vendor = 0x1209, .detach_ms = 255, .transfer = 100,
    .attributes = 7, .busy_ms = 5, .manifest_ms = 10, .least = 1, .unit = 1,
};
static uint8_t pending[DFU_BLOCK_SIZE(100, 16)], medium[DFU_MEDIUM_SIZE(1, 0, 160)], last[sizeof medium];
static const struct dfu_driver driver = DFU_MEMORY_DRIVER(medium);
static struct dfu_device device = {.config = &config, .flash = medium, .size = sizeof medium, .block = pending, .most = sizeof pending,
                                   .driver = &driver};
static long cuts, mediums;

/* The previous image, and the new one. */
static const uint8_t *before, *next;
static uint32_t length_before;
static int is_new;

static void ask(uint8_t kind, uint8_t request, uint16_t value, const uint8_t *body, uint16_t length) {
    uint8_t setup[8] = {kind, request, (uint8_t)value, 0, 0, 0, (uint8_t)length, 0}, out[100];
    handle_in_memory(&device, setup, body, kind == 0x21 ? length : 0,
                      out, sizeof out);
}

static void poll(void) {
    ask(0xa1, 3, 0, before, 6);
}

static void write_block(void) {
    elapse_in_memory(&device, 5);
}

static void put_in_place(void) {
    elapse_in_memory(&device, 10);
}

static void whole(void (*call)(void)) {
    call();
}

/* Installs an image; `may_write` wraps each call that may write. */
static void install(const uint8_t image[IMAGE], void (*may_write)(void (*call)(void))) {
    dfu_device_power_on(&device);
    ask(0x21, 0, 100, image, 0);
    dfu_device_usb_reset(&device);
    for (uint16_t block = 0; block < 2; block++) {
        ask(0x21, 1, block, image + 100 * block, block == 1 ? IMAGE - 100 : 100);
        poll(), may_write(write_block), poll();
    }
    ask(0x21, 1, 2, image, 0);
    poll(), may_write(put_in_place), poll();
}

static int has(const uint8_t *bytes, uint32_t length) {
    struct dfu_place place;
    return dfu_device_image(&device, &place) == 0 && place.length == length
        && memcmp(medium + place.at, bytes, length) == 0;
}

/* Simulates a loss of power now. Returns 1 if the device then starts with the whole previous or the whole new image, and can install a
 * third one. */
static int stands(void) {
    static uint8_t third[IMAGE] = {9, 9};
    memset(&device.record, 0xa5, sizeof device.record);
    if (dfu_device_power_on(&device) != 0 || has(before, length_before) + has(next, IMAGE) != 1
        || (is_new && !has(next, IMAGE)))
        return 0;
    is_new = has(next, IMAGE);
    install(third, whole);
    return has(third, IMAGE);
}

static int failed;

/* Makes a call, cut after 1, 2, 3 and more ticks, until it returns before the cut. */
static void each(void (*call)(void)) {
    static uint8_t start[sizeof medium], block[sizeof pending];
    static struct dfu_record record;
    memcpy(start, medium, sizeof medium), memcpy(block, pending, sizeof pending), record = device.record;
    for (uint32_t ticks = 1; cut(call, ticks); ticks++) {
        cuts++;
        if (memcmp(last, medium, sizeof medium) != 0) {
            memcpy(last, medium, sizeof medium), mediums++;
            if (!stands())
                failed = 1;
        }
        memcpy(medium, start, sizeof medium), memcpy(pending, block, sizeof pending), device.record = record;
    }
}

static void goes(const uint8_t *old, uint32_t length, const uint8_t image[IMAGE]) {
    before = old, length_before = length, next = image, is_new = 0;
    memcpy(last, medium, sizeof medium);
    install(image, each);
    if (!has(image, IMAGE))
        failed = 1;
}

int main(void) {
    static const uint8_t old[3] = {1, 2, 3};
    static uint8_t first[IMAGE], second[IMAGE];
    for (uint8_t at = 0; at < IMAGE; at++)
        first[at] = at, second[at] = (uint8_t)(0xff - at);
    for (int turn = 0; turn < 4; turn++) {
        config.attributes = turn & 1 ? 7 : 3;
        config.unit = turn & 2 ? 16 : 1;
        dfu_device_format(&device, old, sizeof old);
        goes(old, sizeof old, first);
        goes(first, sizeof first, second);
    }
    printf("power off within a call %ld times: %ld mediums, each with %s\n", cuts, mediums,
        failed ? "A WRONG IMAGE ON ONE OF THEM" : "the image before or the new one");
    return failed || mediums < 20;
}
