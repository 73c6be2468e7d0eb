/* SPDX-License-Identifier: MIT OR Apache-2.0 */
/* Implements `run`. */
#ifndef DFU_GADGET_RUN_H
#define DFU_GADGET_RUN_H

#include "words.h"

/* Runs the device until a signal ends it. Returns the exit status. */
int run_device(const struct words *words);

#endif
