/* Measures the time of each call on a flash whose active image has 1 byte, 64 KiB and 1 MiB, and whose other slot is closed. */
#define _POSIX_C_SOURCE 200809L
#include <stdio.h>
#include <time.h>

#include "dfu_device_memory.h"

static const struct dfu_config config = {DFU_VERSION, 0x0100, 1, 0x1209, 255, 4096, 7, 0, 5, 10, 1, 1, 0, 0, 0};
static struct dfu_place place;
static uint8_t medium[DFU_MEDIUM_SIZE(1, 0, 1 << 20)], image[1 << 20], out[4096], body[4096], block[DFU_BLOCK_SIZE(4096, 1)];
static const struct dfu_driver driver = DFU_MEMORY_DRIVER(medium);
static struct dfu_device device = {
    .config = &config, .flash = medium, .size = sizeof medium, .block = block, .most = sizeof block, .driver = &driver};

static void ask(uint8_t kind, uint8_t request, uint16_t length)
{
    uint8_t setup[8] = {kind, request, 0, 0, 0, 0, (uint8_t)length, (uint8_t)(length >> 8)};
    dfu_device_handle(&device, setup, body, out, sizeof out);
}

static void call(int which)
{
    switch (which) {
    case 0: dfu_device_power_on(&device); break;
    case 1: ask(0xa1, DFU_GETSTATE, 1); break;
    case 2: dfu_device_elapse(&device, 0); break;
    case 3: dfu_device_usb_reset(&device); break;
    case 4: dfu_device_image(&device, &place); break;
    case 5: dfu_device_state(&device); break;
    }
}

int main(void)
{
    static const char *const names[] = {"power on", "GETSTATE", "elapse", "bus reset", "image", "state"};
    static const size_t sizes[] = {1, 1 << 16, 1 << 20};
    printf("ns a call, image of    1    64 KiB     1 MiB\n");
    for (int which = 0; which < 6; which++) {
        printf("%-16s", names[which]);
        for (int size = 0; size < 3; size++) {
            struct timespec from, to;
            long turns = size == 0 ? 100000 : size == 1 ? 500 : 40;
            if (dfu_device_format(&device, image, sizes[size]) != 0 || dfu_device_power_on(&device) != 0)
                return 1;
            clock_gettime(CLOCK_MONOTONIC, &from);
            for (long turn = 0; turn < turns; turn++)
                call(which);
            clock_gettime(CLOCK_MONOTONIC, &to);
            printf("%10.0f", ((double)(to.tv_sec - from.tv_sec) * 1e9 + (double)(to.tv_nsec - from.tv_nsec)) / (double)turns);
        }
        printf("\n");
    }
    return 0;
}
