/* SPDX-License-Identifier: MIT OR Apache-2.0 */
/* Implements `format` and `image`. */
#ifndef DFU_GADGET_MEDIUM_FILE_H
#define DFU_GADGET_MEDIUM_FILE_H

#include "words.h"

/* Creates a new medium, or overwrites one if that is allowed. Returns the exit status. */
int make_medium(const struct words *words);

/* Writes the active image to standard output. Returns the exit status. */
int write_image(const struct words *words);

#endif
