/* SPDX-License-Identifier: MIT OR Apache-2.0 */
/* Properties of a terminal. */
#ifndef DFU_FLASH_TERMINAL_H
#define DFU_FLASH_TERMINAL_H

#include <stdbool.h>
#include <stdio.h>

/* Returns true if the stream is a terminal, at which a person reads or types. */
bool terminal_is(FILE *stream);

/* Finds the columns and lines of the terminal on standard error. Returns false if they are unknown. */
bool terminal_size(int *columns, int *lines);

/* Returns the name of the key that ends the input at a terminal. */
const char *terminal_end_key(void);

#endif
