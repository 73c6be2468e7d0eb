/* Sends a request to the device library TURNS times, for a tool that counts instructions. Arguments: WHAT BYTES TURNS. WHAT is GETSTATUS,
 * GETSTATE or DNLOAD; BYTES is the length of the active image, and both slots are open, as after a download. With `download` as WHAT it
 * downloads an image of BYTES bytes once, in blocks of TURNS bytes, and with `begin` it makes only the calls before that. */
#include <stdio.h>
#include <stdlib.h>
#include <string.h>

#include "dfu_device_memory.h"

#define MOST (1 << 24)

static const struct dfu_config config = {DFU_VERSION, 0x0100, 1, 0x1209, 255, 4096, 7, 0, 5, 10, 1, 1, 0, 0, 0};
static uint8_t medium[DFU_MEDIUM_SIZE(1, 0, MOST)], image[MOST], block[DFU_BLOCK_SIZE(4096, 1)], out[4096];
static const struct dfu_driver driver = DFU_MEMORY_DRIVER(medium);
static struct dfu_device device = {
    .config = &config, .flash = medium, .size = sizeof medium, .block = block, .most = sizeof block, .driver = &driver};

static int32_t ask(uint8_t kind, uint8_t request, uint16_t value, const uint8_t *body, uint16_t length)
{
    uint8_t setup[8] = {kind, request, (uint8_t)value, (uint8_t)(value >> 8), 0, 0, (uint8_t)length, (uint8_t)(length >> 8)};
    return dfu_device_handle(&device, setup, body, out, sizeof out);
}

/* Starts the device in dfuIDLE, from which a host begins a download. */
static int begin(void)
{
    return dfu_device_begin(&device) == 0;
}

static int download(size_t bytes, size_t most)
{
    uint16_t number = 0;
    if (!begin())
        return 0;
    for (size_t at = 0; at < bytes; at += most, number++) {
        size_t size = bytes - at < most ? bytes - at : most;
        if (ask(0x21, DFU_DNLOAD, number, image + at, (uint16_t)size) != 0 || ask(0xa1, DFU_GETSTATUS, 0, image, 6) != 6)
            return 0;
        dfu_device_work(&device);
        ask(0xa1, DFU_GETSTATUS, 0, image, 6);
    }
    ask(0x21, DFU_DNLOAD, number, image, 0);
    ask(0xa1, DFU_GETSTATUS, 0, image, 6);
    dfu_device_work(&device);
    return ask(0xa1, DFU_GETSTATUS, 0, image, 6) == 6 && dfu_device_state(&device) == DFU_STATE_IDLE;
}

int main(int count, char **words)
{
    if (count != 4)
        return 2;
    const char *what = words[1];
    size_t bytes = (size_t)atol(words[2]), turns = (size_t)atol(words[3]);
    if (bytes < 1 || bytes > MOST || dfu_device_format(&device, image, bytes) != 0)
        return 2;
    if (strcmp(what, "begin") == 0)
        return !begin();
    if (strcmp(what, "download") == 0)
        return !download(bytes, turns);
    if (!download(bytes, 4096) || !begin())
        return 1;
    for (size_t turn = 0; turn < turns; turn++) {
        if (strcmp(what, "GETSTATUS") == 0)
            ask(0xa1, DFU_GETSTATUS, 0, image, 6);
        else if (strcmp(what, "GETSTATE") == 0)
            ask(0xa1, DFU_GETSTATE, 0, image, 1);
        else if (strcmp(what, "DNLOAD") == 0)
            device.record.mode = 2, ask(0x21, DFU_DNLOAD, 0, image, 64);
        else
            return 2;
    }
    return 0;
}
