/* Prints the stack depth of each call, which a thread runs on a painted stack, and the size of the record. The exit status is 1 if a call
 * needs more bytes of stack than the argument allows. Lines that begin with "format" are for calls that a bootloader may leave out. */
#include "painted.h"
#include <stdio.h>

#include "dfu_device_memory.h"

static const struct dfu_config config = {DFU_VERSION, 0x0100, 1, 0x1209, 255, 4096, 7, 0, 0, 10, 1, 256, 0, 0, 0};
static struct dfu_place place;
static struct dfu_ask due;
static uint8_t medium[DFU_MEDIUM_SIZE(256, 0, 256 * 400)], out[4096], block[4096], pending[DFU_BLOCK_SIZE(4096, 256)];
static const struct dfu_driver driver = DFU_MEMORY_DRIVER(medium);
static struct dfu_device device = {.config = &config, .flash = medium, .size = sizeof medium, .block = pending, .most = sizeof pending,
                                   .driver = &driver};
static struct dfu_device other;
static int32_t answer;

static void ask(uint8_t kind, uint8_t request, uint8_t value, uint16_t length) {
    uint8_t setup[8] = {kind, request, value, 0, 0, 0, (uint8_t)length, (uint8_t)(length >> 8)};
    answer = dfu_device_handle(&device, setup, block, out, sizeof out);
}

static int32_t next(void) {
    return dfu_device_next(&device, &due);
}

static void took(void) {
    answer = dfu_device_took(&device, dfu_device_carry_out(&driver, &due), out, sizeof out);
}

static void *run(void *word) {
    switch (*(int *)word) {
    case 1: dfu_device_power_on(&device); break;
    case 2: ask(0x21, 0, 200, 0); break;
    case 3: dfu_device_usb_reset(&device); break;
    case 4: ask(0x21, 1, 0, 4000); break;
    case 5: ask(0xa1, 3, 0, 6); break;
    case 6: next(); break;
    case 7: took(); break;
    case 8: ask(0x21, 1, 1, 0), ask(0xa1, 3, 0, 6); break;
    case 9: answer = dfu_device_elapse(&device, 10); break;
    case 10: while (answer == DFU_WRITE_PENDING && next() == 0) took(); break;
    case 11: ask(0xa1, 3, 0, 6), ask(0xa1, 2, 0, 4096); break;
    case 12: dfu_device_image(&device, &place); break;
    case 13: dfu_device_work(&device); break;
    case 14: dfu_device_reset(&device); break;
    case 15: dfu_device_is_blank(&device), dfu_device_closes(&device, block); break;
    case 16: dfu_device_format_start(&other, block, sizeof block); break;
    case 17: dfu_device_format_next(&other, block, sizeof block, &due); break;
    case 18: dfu_device_format_took(&other, block, sizeof block, dfu_device_carry_out(&driver, &due)); break;
    case 19: dfu_device_format(&other, block, sizeof block); break;
    default: break;
    }
    return word;
}

static const char *const names[] = {"nothing", "power on", "DETACH", "bus reset", "DNLOAD of 4,000", "GETSTATUS, a block is due", "next",
    "took", "GETSTATUS, to manifest", "pass, an image is due", "its operations", "UPLOAD of 4,096", "image", "work",
    "the work, and a reset", "is blank, and closes",
    "format: start", "format: next", "format: took", "format: all of it"};

int main(int count, char **words) {
    size_t empty = 0, most = 0, allowed = count > 1 ? (size_t)atol(words[1]) : 0;
    if (dfu_device_format(&device, block, sizeof block) != 0)
        return 1;
    other = device;
    for (int call = 0; call < (int)(sizeof names / sizeof *names); call++) {
        const size_t deep = touched(run, &call);
        if (call == 0)
            empty = deep;
        else
            printf("%-26s %6zu bytes of stack\n", names[call], deep - empty);
        most = deep - empty > most ? deep - empty : most;
        if (call == 7)
            while (answer == DFU_WRITE_PENDING && next() == 0)
                took();
    }
    printf("the record has %zu bytes\n", sizeof device.record);
    return most > allowed || dfu_device_state(&device) != 0 || place.length != 4000;
}
