/* Installs an image of 20 bytes in blocks of 8, with a loss of power after each call in turn. The record is lost, the device starts again,
 * and its image is the old one or the whole new one. After that the image can be installed. */
#include <stdio.h>
#include <string.h>

#include "memory.h"

static struct dfu_config config = {DFU_VERSION, 0x0100, 1, 0x1209, 255, 8, 7, 0, 5, 10, 1, 1, 0, 0, 0};
static uint8_t medium[DFU_MEDIUM_SIZE(1, 0, 64)], pending[DFU_BLOCK_SIZE(8, 1)], image[20];
static const struct dfu_driver driver = DFU_MEMORY_DRIVER(medium);
static struct dfu_device device = {.config = &config, .flash = medium, .size = sizeof medium, .block = pending, .most = sizeof pending,
                                   .driver = &driver};
static const uint8_t old[3] = {1, 2, 3};
/* Number of calls before the loss of power, and number of calls so far. */
static int last, made;

static int is_off(void) {
    return made++ >= last;
}

static void ask(uint8_t kind, uint8_t request, uint16_t value, const uint8_t *body, uint16_t length) {
    uint8_t setup[8] = {kind, request, (uint8_t)value, 0, 0, 0, (uint8_t)length, 0}, out[8];
    if (!is_off())
        handle_in_memory(&device, setup, body, kind == 0x21 ? length : 0,
                          out, sizeof out);
}

static void pass(uint32_t ms) {
    if (!is_off())
        elapse_in_memory(&device, ms);
}

static void power_on(void) {
    if (!is_off())
        dfu_device_power_on(&device);
}

static void reset(void) {
    if (!is_off())
        dfu_device_usb_reset(&device);
}

static void install(void) {
    power_on();
    ask(0x21, 0, 100, image, 0);
    reset();
    for (uint16_t block = 0; block < 3; block++) {
        ask(0x21, 1, block, image + 8 * block, block == 2 ? 4 : 8);
        ask(0xa1, 3, 0, image, 6);
        pass(5);
        ask(0xa1, 3, 0, image, 6);
    }
    ask(0x21, 1, 3, image, 0);
    ask(0xa1, 3, 0, image, 6);
    pass(10);
    ask(0xa1, 3, 0, image, 6);
}

static int has(const uint8_t *bytes, uint32_t length) {
    struct dfu_place place;
    return dfu_device_image(&device, &place) == 0 && place.length == length && memcmp(medium + place.at, bytes, length) == 0;
}

int main(void) {
    int olds = 0, news = 0, calls;
    for (size_t i = 0; i < sizeof image; i++)
        image[i] = (uint8_t)(0x40 + i);
    for (int tolerant = 0; tolerant < 2; tolerant++)
        for (calls = 0, last = 0; last == 0 || calls >= last; last++) {
            config.attributes = (uint8_t)(3 + 4 * tolerant);
            if (dfu_device_format(&device, old, sizeof old) != 0)
                return 1;
            made = 0;
            install();
            calls = made;
            olds += has(old, sizeof old);
            news += has(image, sizeof image);
            if (has(old, sizeof old) + has(image, sizeof image) != 1 || dfu_device_power_on(&device) != 0)
                return printf("power: off after %d calls\n", last), 1;
            int kept = last;
            last = 1000;
            memset(&device.record, 0xa5, sizeof device.record);
            install();
            last = kept;
            if (!has(image, sizeof image))
                return printf("power: not installed after a loss at %d\n", last), 1;
        }
    printf("power off at each of %d calls: %d times the old image, %d times the new one\n", calls, olds, news);
    return olds == 0 || news == 0;
}
