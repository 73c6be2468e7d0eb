/* SPDX-License-Identifier: MIT OR Apache-2.0 */
/* Creates output files without overwriting an existing file. */
#ifndef DFU_FLASH_FRESH_H
#define DFU_FLASH_FRESH_H

#include <stdbool.h>
#include <stdio.h>

/* Creates a file and opens it for writing. If the name exists, it is opened only if no content can be lost, as with a pipe or a terminal.
 * Returns NULL on failure, with the reason in errno: EEXIST if any other file has the name, even a dangling symbolic link. */
FILE *fresh_open(const char *name);

/* Closes the file. Returns true if all of its data was written; else the reason is in errno. */
bool fresh_close(FILE *file);

#endif
