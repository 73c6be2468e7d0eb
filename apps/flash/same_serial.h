/* SPDX-License-Identifier: MIT OR Apache-2.0 */
/* Serial numbers of the boards that were flashed in a run of --all. */
#ifndef DFU_FLASH_SAME_SERIAL_H
#define DFU_FLASH_SAME_SERIAL_H

#include "bays.h"

/* Stores a board that was flashed. Prints a message if a board with that serial number was flashed before in this run, because two boards
 * may share a number, or one board was flashed twice. */
void same_serial_note(const struct bay *bay, const char *serial);

#endif
