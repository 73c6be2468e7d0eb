/* SPDX-License-Identifier: MIT OR Apache-2.0 */
/* The board: an nRF51 like QEMU's machine `microbit`, with 256 KiB of flash in pages of 1,024 bytes and 16 KiB of RAM. These numbers must
 * be the same in the bootloader, the image and the factory program. */
#ifndef BOARD_H
#define BOARD_H
#include "dfu_device.h"

/* Number of starts of a new image on trial until it confirms itself; with 0 no image runs on trial. */
#ifndef TRIES
#define TRIES 0
#endif

#define FLASH_SIZE 0x40000u
#define PAGE 1024u
#define TRANSFER 256 /* wTransferSize */
#define UNIT 16      /* bytes of the smallest program */

/* The flash after the bootloader is the device's medium: two slots, each with a page for its gate, one for its header, and the rest for the
 * image. The run area follows, for which images are linked. The last two pages belong to the application. */
#define CAPACITY ((TRIES ? 76 : 77) * PAGE)
#define MEDIUM (TRIES ? 0x5400u : 0x4c00u)
#define MEDIUM_SIZE DFU_MEDIUM_SIZE(UNIT, PAGE, CAPACITY)
#define RUN (MEDIUM + MEDIUM_SIZE)

/* RAM of the image, after that of the bootloader. */
#define IMAGE_MEMORY 0x20001000u
#define IMAGE_MEMORY_END 0x20004000u

extern const struct dfu_config board_config;

#endif
