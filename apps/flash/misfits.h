/* SPDX-License-Identifier: MIT OR Apache-2.0 */
/* Reports the boards that --all skips because the file isn't for them. */
#ifndef DFU_FLASH_MISFITS_H
#define DFU_FLASH_MISFITS_H

#include "bays.h"

/* Prints one line for each board whose identifiers differ from the file's. A path at which a board was flashed is skipped, because that
 * board may restart with other identifiers. Of the boards in the first poll only those in DFU mode, or at a port in --ports, are printed,
 * because a computer has internal devices with DFU. If `are_listed` is true, none of the first poll is printed, because another message
 * lists all of them. */
void misfits_see(const struct bays *bays, const struct port *ports, int count, bool are_listed);

#endif
