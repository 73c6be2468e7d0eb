/* SPDX-License-Identifier: MIT OR Apache-2.0 */
/* The board of ../microcontroller, QEMU's machine `microbit`, with a bootloader that accepts only signed images. This bootloader has more
 * room than that of ../microcontroller, and the images have less. These numbers must be the same in the bootloader, the image and the
 * factory program. */
#ifndef BOARD_H
#define BOARD_H
#include "dfu_trial.h"

#define FLASH_SIZE 0x40000u
#define PAGE 1024u
#define TRANSFER 256 /* wTransferSize */
#define UNIT 16      /* bytes of the smallest program */
#define HARDWARE 7   /* the board's number, which TLV 00a0h of its images must contain */
#define TRIES 3

/* The bootloader is followed by the device's two slots, the run area for which images are linked, and four pages for the application. A
 * slot and the run area hold the whole signed image, so that it can be checked again before each start. */
#define CAPACITY (64 * PAGE)
#define MEDIUM 0xe000u
#define MEDIUM_SIZE DFU_MEDIUM_SIZE(UNIT, PAGE, CAPACITY)
#define RUN (MEDIUM + MEDIUM_SIZE)

/* RAM of the image, after that of the bootloader. */
#define IMAGE_MEMORY 0x20002000u
#define IMAGE_MEMORY_END 0x20004000u

extern const struct dfu_config board_config;
extern const struct dfu_tries board_tries;

#endif
