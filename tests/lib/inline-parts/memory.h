/* Tests the driver of dfu_device_memory.h, which must change exactly the bytes of its range, as the operation says; and the two calls that
 * use it to build the first contents of a flash in memory. */
#ifndef MEMORY_H
#define MEMORY_H
#include "plans.h"

#define CELLS 7

/* Tries each range of a few bytes with both operations of the driver. */
static void try_driver(void)
{
    while (next_path("driver of dfu_device_memory.h")) {
        uint8_t cells[CELLS], wanted[CELLS], bytes[CELLS];
        const struct dfu_driver stores = DFU_MEMORY_DRIVER(cells);
        const unsigned is_erase = pick(2), at = pick(CELLS), length = pick(CELLS + 1 - at);
        for (unsigned i = 0; i < CELLS; i++) {
            cells[i] = wanted[i] = (uint8_t)(0x10 + i);
            bytes[i] = (uint8_t)(0x20 + i);
        }
        for (unsigned i = 0; i < length; i++)
            wanted[at + i] = is_erase ? 0xff : bytes[i];
        holds((is_erase ? stores.erase(stores.own, at, length) : stores.program(stores.own, at, bytes, length)) == 0, "it failed");
        holds(memcmp(cells, wanted, sizeof cells) == 0, "other bytes were changed");
        path_ends();
    }
}

/* Sets the arguments of a program that has memory, but no device: the inline call makes one. A format doesn't use its block. */
static void hand_in_memory(uint8_t *medium, size_t size)
{
    hand_in(1);
    memory = medium;
    given.flash = medium;
    given.size = size;
    given.record = NULL;
    config.unit = given.tries.unit = 64;
    config.sector = given.tries.sector = 512;
    given.tries.tries = 3;
}

static void try_memory(void)
{
    static uint8_t medium[600];
    while (next_path("dfu_memory_format")) {
        hand_in_memory(medium, sizeof medium);
        follow(formatting, 1);
        returned(dfu_memory_format(&config, medium, sizeof medium, image, sizeof image));
    }
    while (next_path("dfu_trial_format_memory")) {
        hand_in_memory(medium, sizeof medium);
        follow(formatting_a_trial, 1);
        returned(dfu_trial_format_memory(&config, 3, medium, sizeof medium, image, sizeof image));
    }
}

#endif
