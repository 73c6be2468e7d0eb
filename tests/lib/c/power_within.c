/* Installs two images, one after the other, and runs each call that may write instruction by instruction, with the trap flag of x86-64.
 * After each instruction that changed the flash, the test keeps the flash's contents, as a loss of power would leave them. With each of
 * these contents the device must start, and its image must be the whole previous one or the whole new one; once the new one was active, the
 * previous one must not return. Then an image can be installed. The units are 1 and 16 bytes. The effects of caches and memory are not
 * simulated. */
#define _POSIX_C_SOURCE 200809L
#include <signal.h>
#include <stdio.h>
#include <string.h>
#include <x86intrin.h>

#include "memory.h"

#define MOST 20000
#define TRAP 0x100

#define IMAGE 150 /* bytes, in blocks of 100; with units of 16 some are held back after each block */

static struct dfu_config config = {DFU_VERSION, 0x0100, 1, 0x1209, 255, 100, 7, 0, 5, 10, 1, 1, 0, 0, 0};
static uint8_t pending[DFU_BLOCK_SIZE(100, 16)], medium[DFU_MEDIUM_SIZE(1, 0, 160)], mediums[MOST][sizeof medium];
static const struct dfu_driver driver = DFU_MEMORY_DRIVER(medium);
static struct dfu_device device = {.config = &config, .flash = medium, .size = sizeof medium, .block = pending, .most = sizeof pending,
                                   .driver = &driver};
static unsigned count;
static unsigned long steps;
static int is_stepped;

/* Keeps the flash after each instruction that changed it. */
static void on_step(int number) {
    (void)number;
    steps++;
    if (count < MOST && memcmp(mediums[count - 1], medium, sizeof medium) != 0)
        memcpy(mediums[count++], medium, sizeof medium);
}

static void step(int is_on) {
    if (is_stepped)
        __writeeflags(is_on ? __readeflags() | TRAP : __readeflags() & ~(unsigned long long)TRAP);
}

static void ask(uint8_t kind, uint8_t request, uint16_t value, const uint8_t *body, uint16_t length) {
    uint8_t setup[8] = {kind, request, (uint8_t)value, 0, 0, 0, (uint8_t)length, 0}, out[100];
    step(1);
    handle_in_memory(&device, setup, body, kind == 0x21 ? length : 0,
                      out, sizeof out);
    step(0);
}

static void pass(uint32_t ms) {
    step(1);
    elapse_in_memory(&device, ms);
    step(0);
}

static void install(const uint8_t image[IMAGE]) {
    dfu_device_power_on(&device);
    ask(0x21, 0, 100, image, 0);
    dfu_device_usb_reset(&device);
    for (uint16_t block = 0; block < 2; block++) {
        ask(0x21, 1, block, image + 100 * block, block == 1 ? IMAGE - 100 : 100);
        ask(0xa1, 3, 0, image, 6);
        pass(5);
        ask(0xa1, 3, 0, image, 6);
    }
    ask(0x21, 1, 2, image, 0);
    ask(0xa1, 3, 0, image, 6);
    pass(10);
    ask(0xa1, 3, 0, image, 6);
}

static int has(const uint8_t *bytes, uint32_t length) {
    struct dfu_place place;
    return dfu_device_image(&device, &place) == 0 && place.length == length
        && memcmp(medium + place.at, bytes, length) == 0;
}

/* Checks each kept flash in order: the device starts with the previous image or the new one, but not with the previous one once an earlier
 * flash had the new one, and a third image can be installed. Returns 1 if all this holds, and the last flash has the new image. `length` is
 * that of the previous image. */
static int stands(const uint8_t *before, uint32_t length, const uint8_t image[IMAGE]) {
    uint8_t third[IMAGE] = {9, 9};
    int is_new = 0;
    for (unsigned at = 0; at < count; at++) {
        memcpy(medium, mediums[at], sizeof medium);
        memset(&device.record, 0xa5, sizeof device.record);
        if (dfu_device_power_on(&device) != 0 || has(before, length) + has(image, IMAGE) != 1
            || (is_new && !has(image, IMAGE)))
            return printf("power within: no image, or a wrong one, on medium %u of %u\n", at, count), 0;
        is_new = has(image, IMAGE);
        install(third);
        if (!has(third, IMAGE))
            return printf("power within: nothing can be installed on medium %u of %u\n", at, count), 0;
    }
    return is_new;
}

/* Installs an image over another, instruction by instruction. */
static int goes(const uint8_t *before, uint32_t length, const uint8_t image[IMAGE]) {
    uint8_t after[sizeof medium];
    memcpy(mediums[0], medium, sizeof medium);
    count = 1;
    is_stepped = 1;
    install(image);
    is_stepped = 0;
    memcpy(after, medium, sizeof medium);
    if (count == MOST || !stands(before, length, image))
        return 0;
    memcpy(medium, after, sizeof medium);
    return 1;
}

int main(void) {
    static const uint8_t old[3] = {1, 2, 3};
    struct sigaction action = {.sa_handler = on_step};
    uint8_t first[IMAGE], second[IMAGE];
    unsigned seen = 0;
    for (uint8_t at = 0; at < IMAGE; at++) {
        first[at] = at;
        second[at] = (uint8_t)(0xff - at);
    }
    sigaction(SIGTRAP, &action, NULL);
    for (int turn = 0; turn < 4; turn++) {
        config.attributes = turn & 1 ? 7 : 3;
        config.unit = turn & 2 ? 16 : 1;
        if (dfu_device_format(&device, old, sizeof old) != 0 || !goes(old, sizeof old, first))
            return 1;
        seen += count;
        if (!goes(first, sizeof first, second))
            return 1;
        seen += count;
    }
    printf("power off after each of %lu instructions: %u mediums, each with the image before or the new one\n", steps, seen);
    return seen < 20;
}
