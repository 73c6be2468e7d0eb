/* SPDX-License-Identifier: MIT OR Apache-2.0 */
/* The driver of the flash controller. */
#ifndef FLASH_H
#define FLASH_H
#include <stdint.h>

/* The medium and the run area, where the libraries read them. */
extern const uint8_t *const flash_medium, *const flash_run;

/* The driver of the memory at `own`, which is the medium or the run area. It erases the page at offset `at`, or programs bytes there, in
 * whole words. Both return 0, or 1 if the range is outside of that memory. */
int flash_erase(void *own, uint32_t at, uint32_t length);
int flash_program(void *own, uint32_t at, const uint8_t *bytes, uint32_t length);

#endif
