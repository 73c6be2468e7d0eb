/* SPDX-License-Identifier: MIT OR Apache-2.0 */
/* A run area of 64 KiB in memory. `run_area compare SECTOR` compares it with its image, `run_area install SECTOR` copies the image over
 * zeros, and `run_area begin SECTOR` does neither. */
#include "dfu_device_memory.h"
#include "dfu_install.h"

#include <stdlib.h>

static uint8_t image[65536], area[65536];

int main(int count, char **words)
{
    const char what = count > 2 ? words[1][0] : 0;
    const struct dfu_driver driver = DFU_MEMORY_DRIVER(area);
    struct dfu_install install = {area, sizeof area, {what ? (uint32_t)atol(words[2]) : 0, DFU_NOWHERE}, &driver};
    struct dfu_ask ask;
    for (uint32_t i = 0; i < sizeof image; i++) {
        image[i] = (uint8_t)(i * 7 + 1);
        area[i] = what == 'i' ? 0 : image[i];
    }
    if (what == 'c')
        return dfu_install_next(&install, image, sizeof image, &ask) != 0;
    return what == 'i' && dfu_install_settle(&install, image, sizeof image) != 0;
}
