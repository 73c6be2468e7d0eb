/* SPDX-License-Identifier: MIT OR Apache-2.0 */
/* The flash of a part that is mapped into memory; here it is memory of QEMU's machine. Power is lost in the middle of an operation, whose
 * range then has one of four contents: unchanged, half done, all done, or every byte reads like an open gate. */
#include "board.h"

const struct dfu_config board_config = {
    .version = DFU_VERSION,
    .vendor = 0x1209,
    .product = 0x0001,
    .device = 0x0100,
    .attributes = DFU_CAN_DNLOAD | DFU_MANIFESTATION_TOLERANT,
    .detach_ms = 1000,
    .transfer = BLOCK,
    .least = 8,
    .unit = UNIT,
    .sector = SECTOR,
};

static uint8_t *const part = (uint8_t *)FLASH;

/* Returns the way in which this operation is cut off, or TEARS if it is not cut off. */
static uint32_t tear_of(void) {
    world.operations = world.operations + 1;
    return world.operations == world.cut[0] ? world.tear[0] : world.operations == world.cut[1] ? world.tear[1] : TEARS;
}

/* Returns byte `i` of the operation's range after the operation, which may be cut off. */
static uint8_t torn(uint32_t tear, uint32_t i, uint32_t length, uint8_t before, uint8_t after) {
    switch (tear) {
    case 0: return before;
    case 1: return i < length / 2 ? after : before;
    case 2: return 0xa5;
    default: return after;
    }
}

int flash_erase(void *own, uint32_t at, uint32_t length) {
    const uint32_t tear = tear_of();
    (void)own;
    for (uint32_t i = 0; i < length; i++)
        part[at + i] = torn(tear, i, length, part[at + i], 0xff);
    if (tear < TEARS)
        board_reset();
    return 0;
}

int flash_program(void *own, uint32_t at, const uint8_t *bytes, uint32_t length) {
    const uint32_t tear = tear_of();
    (void)own;
    for (uint32_t i = 0; i < length; i++) {
        if (part[at + i] != 0xff)
            board_stop("a byte is programmed that is not erased", 1);
        part[at + i] = torn(tear, i, length, part[at + i], bytes[i]);
    }
    if (tear < TEARS)
        board_reset();
    return 0;
}

static void semihost(uintptr_t call, const void *words) {
    register uintptr_t r0 __asm__("r0") = call;
    register const void *r1 __asm__("r1") = words;
    __asm__ volatile("bkpt 0xab" : "+r"(r0) : "r"(r1) : "memory");
}

void board_stop(const char *text, int status) {
    const uintptr_t words[2] = {0x20026, (uintptr_t)status};
    semihost(4, text);
    semihost(4, "\n");
    for (;;)
        semihost(0x20, words);
}

void board_reset(void) {
    __asm__ volatile("dsb" : : : "memory");
    *(volatile uint32_t *)0xe000ed0cu = 0x05fa0004;
    for (;;)
        ;
}
