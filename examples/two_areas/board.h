/* SPDX-License-Identifier: MIT OR Apache-2.0 */
/* The board: a Cortex-M3 with flash in two areas, and the state of the current life (one update with its cuts). */
#ifndef BOARD_H
#define BOARD_H

#include "dfu_home.h"

/* The flash, which holds only the two slots. Images are linked for the data of the first slot, at PLACE. */
enum { UNIT = 16, SECTOR = 4096, CAPACITY = 4 * SECTOR, BLOCK = 512 };
#define FLASH 0x21000000u
#define SIZE DFU_MEDIUM_SIZE(UNIT, SECTOR, CAPACITY)
#define PLACE (FLASH + DFU_HOME_AT(UNIT, SECTOR))

extern const struct dfu_config board_config;

/* Driver of the flash. It counts operations, and cuts power in the operations that are selected for this life. */
int flash_erase(void *own, uint32_t at, uint32_t length);
int flash_program(void *own, uint32_t at, const uint8_t *bytes, uint32_t length);

/* Files of the two images for the host, in memory outside the flash. */
#define OLD_FILE ((const uint8_t *)0x20100000u)
#define NEW_FILE ((const uint8_t *)0x20200000u)

enum phase { PHASE_NEW, PHASE_RUNS, PHASE_ENDED };
enum { OLD = 1, NEW = 2, TEARS = 4 };

/* State that lasts through resets of the processor. */
struct world {
    uint32_t magic, phase;
    uint32_t old_length, new_length;        /* lengths of the two files in bytes */
    uint32_t operations, cut[2], tear[2];   /* operations so far; numbers of the operations to cut off, or 0; kind of each cut */
    uint32_t all, then;                     /* operations of a life without a cut, and of one with this first cut */
    uint32_t has_taken;                     /* 1 once the old image began to receive the new one */
    uint32_t ran;                           /* image that ran last: OLD or NEW */
    uint32_t olds, news, seconds, refusals; /* lives that ended with each image, lives with a second cut, and refused downloads */
    uint32_t copies, most;                  /* number of starts that copied, and their maximum number of operations */
};
#define world (*(volatile struct world *)0x20000000u)

/* Ends the run, and prints a line of text. */
void board_stop(const char *text, int status);
/* Resets the processor, which starts the bootloader. */
void board_reset(void);

/* lives_begin selects the cuts of this life before the bootloader begins. lives_start checks the image that the bootloader starts. */
void lives_begin(struct dfu_device *device);
void lives_start(uint32_t before, const struct dfu_place *place);

#endif
