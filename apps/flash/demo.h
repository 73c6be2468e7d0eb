/* SPDX-License-Identifier: MIT OR Apache-2.0 */
/* --demo: simulates a board inside the program, with the proved device code. It doesn't use USB, and marks each line and record as
 * simulated. */
#ifndef DFU_FLASH_DEMO_H
#define DFU_FLASH_DEMO_H

#include "words.h"

/* Demonstrates the program with FILE, or with an image of its own if there is none: a list, downloads, a lost answer, a pulled plug.
 * Returns 0 if all steps went as expected, else an exit status. */
int demo_run(const struct words *words);

#endif
