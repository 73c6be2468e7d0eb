/* SPDX-License-Identifier: MIT OR Apache-2.0 */
/* Implements --dry-run. */
#ifndef DFU_GADGET_REQUIREMENTS_H
#define DFU_GADGET_REQUIREMENTS_H

#include "words.h"

/* Prints a line for each requirement of `run`, and changes nothing. Returns the status, STATUS_MISSING if one of them isn't met. */
int look_around(const struct words *words);

#endif
