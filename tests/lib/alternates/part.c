/* Implements the part as memory. A program of bytes that are not erased, and an operation outside of the places, end the run. */
#include "part.h"

#include <stdio.h>
#include <stdlib.h>

uint8_t part[PART];
unsigned operations, cut, tear, failing, lying;
jmp_buf off;

static void must(int is_right, const char *what) {
    if (is_right)
        return;
    fprintf(stderr, "the part: %s\n", what);
    abort();
}

static uint8_t torn(uint32_t i, uint32_t length, uint8_t before, uint8_t after) {
    if (operations == lying)
        return before;
    if (operations != cut)
        return after;
    return tear == 0 ? before : tear == 1 ? (i < length / 2 ? after : before) : tear == 2 ? 0xa5 : after;
}

static int ended(void) {
    if (operations == cut)
        longjmp(off, 1);
    return operations == failing;
}

int part_erase(uint32_t at) {
    must(at % SECTOR == 0 && at >= 24 * 1024 && at < PART, "a sector that is none, or the bootloader's");
    operations++;
    for (uint32_t i = 0; i < SECTOR; i++)
        part[at + i] = torn(i, SECTOR, part[at + i], 0xff);
    return ended();
}

int part_program(uint32_t at, const uint8_t *bytes, uint32_t length) {
    must(at % UNIT == 0 && length % UNIT == 0 && length >= 1 && length <= 256, "a program of other than whole units");
    must(at >= 24 * 1024 && at <= PART - length, "a program of the bootloader, or outside");
    operations++;
    for (uint32_t i = 0; i < length; i++) {
        must(part[at + i] == 0xff, "a byte is programmed that is not erased");
        part[at + i] = torn(i, length, part[at + i], bytes[i]);
    }
    return ended();
}
