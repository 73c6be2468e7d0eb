/* SPDX-License-Identifier: MIT OR Apache-2.0 */
/* The NVMC of the nRF51. It erases pages of 1,024 bytes, and writes words, in which a bit can only change to 0. If the processor runs from
 * flash, it stops during an operation. */
#include "flash.h"

#include "board.h"

#define NVMC_READY (*(volatile uint32_t *)0x4001e400)
#define NVMC_CONFIG (*(volatile uint32_t *)0x4001e504)
#define NVMC_ERASEPAGE (*(volatile uint32_t *)0x4001e508)
enum { READ_ONLY = 0, WRITE = 1, ERASE = 2 };

const uint8_t *const flash_medium = (const uint8_t *)MEDIUM, *const flash_run = (const uint8_t *)RUN;

static void wait_until_ready(void) {
    while ((NVMC_READY & 1) == 0)
        ;
}

static void allow(uint32_t what) {
    NVMC_CONFIG = what;
    wait_until_ready();
}

/* The two writes that change the flash. They are separate functions, so that a debugger can stop at each. */
__attribute__((noinline)) void flash_erase_page(uint32_t page);
void flash_erase_page(uint32_t page) {
    NVMC_ERASEPAGE = page;
    wait_until_ready();
}

__attribute__((noinline)) void flash_write_word(volatile uint32_t *to, uint32_t word);
void flash_write_word(volatile uint32_t *to, uint32_t word) {
    *to = word;
    wait_until_ready();
}

/* Returns 1 if a range lies in the medium or in the run area. The contracts of the libraries guarantee that. It is checked again, because a
 * bootloader must not erase itself. */
static int is_in(uint32_t begins, uint32_t at, uint32_t length, uint32_t whole) {
    const uint32_t size = begins == MEDIUM ? MEDIUM_SIZE : begins == RUN ? CAPACITY : 0;
    return at <= size && length <= size - at && at % whole == 0 && length % whole == 0;
}

int flash_erase(void *own, uint32_t at, uint32_t length) {
    const uint32_t begins = (uint32_t)own;
    if (!is_in(begins, at, length, PAGE))
        return 1;
    allow(ERASE);
    for (uint32_t page = 0; page < length; page += PAGE)
        flash_erase_page(begins + at + page);
    allow(READ_ONLY);
    return 0;
}

int flash_program(void *own, uint32_t at, const uint8_t *bytes, uint32_t length) {
    const uint32_t begins = (uint32_t)own;
    if (!is_in(begins, at, length, sizeof(uint32_t)))
        return 1;
    allow(WRITE);
    for (uint32_t i = 0; i < length; i += 4) {
        uint32_t word = bytes[i] | (uint32_t)bytes[i + 1] << 8 | (uint32_t)bytes[i + 2] << 16 | (uint32_t)bytes[i + 3] << 24;
        flash_write_word((volatile uint32_t *)(begins + at + i), word);
    }
    allow(READ_ONLY);
    return 0;
}
