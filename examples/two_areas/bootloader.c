/* SPDX-License-Identifier: MIT OR Apache-2.0 */
/* A bootloader for two areas: at each start it copies the active image to the first slot and runs it there. (A product also serves the host
 * here, by the loop of dfu_device.h, if a button requests it or if dfu_home_settle returns a refusal.) */
#include "board.h"

static const struct dfu_driver driver = {0, flash_erase, flash_program};
static struct dfu_device device = {.config = &board_config, .flash = (const uint8_t *)FLASH, .size = SIZE, .driver = &driver};

/* Starts an image, whose first two words are its stack pointer and its reset handler. */
static void go(const uint32_t first[2]) {
    *(volatile uint32_t *)0xe000ed08u = PLACE;
    __asm__ volatile("msr msp, %0\n\tbx %1" : : "r"(first[0]), "r"(first[1]) : "memory");
}

int main(void) {
    struct dfu_place place;
    lives_begin(&device);
    const uint32_t before = world.operations;
    if (dfu_home_settle(&device, &place) != 0)
        board_stop("no image comes to the first slot", 1);
    lives_start(before, &place);
    go((const uint32_t *)PLACE);
    return 0;
}
