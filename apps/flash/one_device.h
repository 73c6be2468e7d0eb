/* SPDX-License-Identifier: MIT OR Apache-2.0 */
/* Runs one session from the options to the report, or lists the devices. */
#ifndef DFU_FLASH_ONE_DEVICE_H
#define DFU_FLASH_ONE_DEVICE_H

#include "find.h"
#include "image.h"
#include "progress.h"
#include "words.h"

/* Returns the criteria for a device that the options set. */
struct wanted wanted_of(const struct words *words);

/* Carries out the job of the command line. If the image has bytes, they are the content of FILE, which was read before. Returns the exit
 * status. */
int one_run(const struct words *words, struct image *image, enum progress_style style);

#endif
