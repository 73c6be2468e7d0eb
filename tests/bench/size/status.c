/* SPDX-License-Identifier: MIT OR Apache-2.0 */
/* Sends GETSTATUS to the device TURNS times, for a tool that counts instructions. Arguments: BYTES TURNS. BYTES is the length of the active
 * image, and the device is in dfuIDLE. With a third argument it starts the device TURNS times instead. */
#include <stdlib.h>

#include "dfu_device_memory.h"

static const struct dfu_config config = {DFU_VERSION, 0x0100, 1, 0x1209, 255, 64, 7, 0, 5, 10, 1, 1, 0, 0, 0};
static uint8_t flash[DFU_MEDIUM_SIZE(1, 0, 65536)], image[65536], block[DFU_BLOCK_SIZE(64, 1)], out[64];
static const struct dfu_driver driver = DFU_MEMORY_DRIVER(flash);
static struct dfu_device device = {
    .config = &config, .flash = flash, .size = sizeof flash, .block = block, .most = sizeof block, .driver = &driver};

int main(int count, char **words)
{
    static const uint8_t setup[8] = {0xa1, DFU_GETSTATUS, 0, 0, 0, 0, 6, 0};
    size_t bytes = count >= 3 ? (size_t)atol(words[1]) : 0, turns = count >= 3 ? (size_t)atol(words[2]) : 0;
    if (bytes < 1 || bytes > sizeof image || dfu_device_format(&device, image, bytes) != 0)
        return 2;
    if (dfu_device_begin(&device) != 0)
        return 1;
    for (size_t turn = 0; turn < turns; turn++) {
        if (count == 4) {
            if (dfu_device_begin(&device) != 0)
                return 1;
            continue;
        }
        if (dfu_device_handle(&device, setup, image, out, sizeof out) != 6 || out[4] != DFU_STATE_IDLE)
            return 1;
    }
    return 0;
}
