/* SPDX-License-Identifier: MIT OR Apache-2.0 */
/* The summary at the end of --all. */
#ifndef DFU_FLASH_SUMMARY_H
#define DFU_FLASH_SUMMARY_H

#include "crew.h"
#include "words.h"

/* Prints the number of flashed devices, unless --quiet was given, and with --report or --count a record of the whole run. If fewer boards
 * than --count were flashed, the exit status `crew->worst` becomes a failure. */
void summary_print(struct crew *crew, const struct words *words, double seconds);

#endif
