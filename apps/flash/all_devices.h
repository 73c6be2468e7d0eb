/* SPDX-License-Identifier: MIT OR Apache-2.0 */
/* --all: flashes every device that matches the file. */
#ifndef DFU_FLASH_ALL_DEVICES_H
#define DFU_FLASH_ALL_DEVICES_H

#include "words.h"

/* Flashes each connected device; with --wait also each device that is connected later. Returns the highest exit status of all sessions.
 * Status 8, for an image that isn't proved to be in place, counts as lower than all others but 0. */
int all_run(const struct words *words);

#endif
