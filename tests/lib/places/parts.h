/* Parts with unequal sectors, and on each a placement of two areas after a bootloader of 32 KiB: the addresses that `plan` of dfu_places
 * finds. The sectors were not compared with the data sheets of the parts. */
#ifndef PARTS_H
#define PARTS_H

#include "dfu_places.h"

enum { KIB = 1024, UNIT = 16, REGIONS = 3 };

/* Name, virtual sector and data; then as in DFU_PLACEMENT: bootloader; gate, header and data of the first slot; those of the second. */
DFU_PLACEMENT(f411, 131072, 131072, UNIT, 0x08000000, 32768,
              0x08008000, 16384, 0x0800c000, 16384, 0x08040000,
              0x08010000, 65536, 0x08020000, 131072, 0x08060000);
DFU_PLACEMENT(f407, 131072, 393216, UNIT, 0x08000000, 32768,
              0x08008000, 16384, 0x0800c000, 16384, 0x08040000,
              0x08010000, 65536, 0x08020000, 131072, 0x080a0000);
DFU_PLACEMENT(f746, 262144, 262144, UNIT, 0x08000000, 32768,
              0x08008000, 32768, 0x08010000, 32768, 0x08040000,
              0x08018000, 32768, 0x08020000, 131072, 0x08080000);
DFU_PLACEMENT(f767, 262144, 786432, UNIT, 0x08000000, 32768,
              0x08008000, 32768, 0x08010000, 32768, 0x08040000,
              0x08018000, 32768, 0x08020000, 131072, 0x08100000);
DFU_PLACEMENT(h743, 131072, 655360, UNIT, 0x08000000, 32768,
              0x08020000, 131072, 0x08040000, 131072, 0x080a0000,
              0x08060000, 131072, 0x08080000, 131072, 0x08140000);
DFU_PLACEMENT(nrf52832, 4096, 237568, UNIT, 0x00000000, 32768,
              0x00008000, 4096, 0x00009000, 4096, 0x0000c000,
              0x0000a000, 4096, 0x0000b000, 4096, 0x00046000);

/* Consecutive sectors of one size. */
struct region {
    uint32_t at, sector, count;
};

struct part {
    const char *name;
    struct region regions[REGIONS];
    const struct dfu_placement *placement;
    uint32_t kib; /* size of the largest image */
};

static const struct part PARTS[] = {
    {"STM32F411", {{0x08000000, 16 * KIB, 4}, {0x08010000, 64 * KIB, 1}, {0x08020000, 128 * KIB, 3}}, &f411, 128},
    {"STM32F407", {{0x08000000, 16 * KIB, 4}, {0x08010000, 64 * KIB, 1}, {0x08020000, 128 * KIB, 7}}, &f407, 384},
    {"STM32F746", {{0x08000000, 32 * KIB, 4}, {0x08020000, 128 * KIB, 1}, {0x08040000, 256 * KIB, 3}}, &f746, 256},
    {"STM32F767", {{0x08000000, 32 * KIB, 4}, {0x08020000, 128 * KIB, 1}, {0x08040000, 256 * KIB, 7}}, &f767, 768},
    {"STM32H743", {{0x08000000, 128 * KIB, 16}, {0, 0, 0}, {0, 0, 0}}, &h743, 640},
    {"nRF52832", {{0x00000000, 4 * KIB, 128}, {0, 0, 0}, {0, 0, 0}}, &nrf52832, 232},
};

#endif
