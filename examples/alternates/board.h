/* SPDX-License-Identifier: MIT OR Apache-2.0 */
/* The part: flash that is mapped into memory, and two functions that the board defines. The numbers are those of a part of 128 KiB. */
#ifndef BOARD_H
#define BOARD_H

#include <stdint.h>

/* Bytes of the part, of a sector (one erase), of a unit (the smallest program), and of a block (one DNLOAD). */
enum { PART = 128 * 1024, SECTOR = 2048, UNIT = 16, BLOCK = 1024 };

/* The mapped flash; the linker script defines this symbol. */
extern uint8_t part[PART];

/* Erase the sector at an offset, and program bytes at an offset. Both return 0 on success, and another number if the part reports a
 * failure. A program has 1 to 256 bytes, in whole units. */
int part_erase(uint32_t at);
int part_program(uint32_t at, const uint8_t *bytes, uint32_t length);

#endif
