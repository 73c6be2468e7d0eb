/* Sends GETSTATUS to a device in dfuDNLOAD-IDLE TURNS times, for a tool that counts instructions. Arguments: SECTOR TURNS. Before that a
 * block of 64 bytes is written, in units of 16, so that the rest of its sector of SECTOR bytes is erased. With `download` as third argument
 * it sends and writes TURNS blocks of 1,024 bytes, with polls between them; SECTOR 0 then means plain memory. */
#include <stdio.h>
#include <stdlib.h>

#include "dfu_device_memory.h"

#include <string.h>

#define LARGEST 131072

static struct dfu_config config = {DFU_VERSION, 0x0100, 1, 0x1209, 255, 1024, 7, 0, 0, 0, 1, 16, 0, 0, 0};
static uint8_t medium[DFU_MEDIUM_SIZE(16, LARGEST, LARGEST)], block[DFU_BLOCK_SIZE(1024, 16)], out[1024];
static const struct dfu_driver driver = DFU_MEMORY_DRIVER(medium);
static struct dfu_device device = {.config = &config, .flash = medium, .block = block, .most = sizeof block, .driver = &driver};

static int32_t send(uint8_t kind, uint8_t request, uint16_t number, uint16_t length)
{
    static const uint8_t body[1024] = {1};
    const uint8_t setup[8] = {kind, request, (uint8_t)number, 0, 0, 0, (uint8_t)length, (uint8_t)(length >> 8)};
    return dfu_device_serve(&device, setup, body, out, sizeof out);
}

static int32_t ask(uint8_t kind, uint8_t request, uint8_t length)
{
    return send(kind, request, 0, length);
}

static int poll(void)
{
    return ask(0xa1, DFU_GETSTATUS, 6) == 6 && dfu_device_work(&device) == 0 && ask(0xa1, DFU_GETSTATUS, 6) == 6;
}

static int download(long blocks)
{
    for (uint16_t number = 0; number < blocks; number++) {
        if (send(0x21, DFU_DNLOAD, number, 1024) != 0 || !poll())
            return 1;
    }
    return blocks > 0 && (send(0x21, DFU_DNLOAD, (uint16_t)blocks, 0) != 0 || !poll() || dfu_device_state(&device) != DFU_STATE_IDLE);
}

int main(int count, char **words)
{
    if (count != 3 && (count != 4 || strcmp(words[3], "download") != 0))
        return 2;
    config.sector = (uint32_t)atol(words[1]);
    config.unit = count == 4 ? 1 : 16;
    device.size = DFU_MEDIUM_SIZE(config.unit, config.sector, count == 4 ? 65536 : config.sector);
    static const uint8_t image[100] = {1};
    if (config.sector > LARGEST || dfu_device_format(&device, image, sizeof image) != 0 || dfu_device_begin(&device) != 0)
        return 2;
    if (count == 4)
        return download(atol(words[2]));
    if (ask(0x21, DFU_DNLOAD, 64) != 0 || ask(0xa1, DFU_GETSTATUS, 6) != 6)
        return 1;
    for (long turn = atol(words[2]); turn > 0; turn--) {
        if (ask(0xa1, DFU_GETSTATUS, 6) != 6 || dfu_device_state(&device) != DFU_STATE_DNLOAD_IDLE)
            return 1;
    }
    return 0;
}
