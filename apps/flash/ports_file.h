/* SPDX-License-Identifier: MIT OR Apache-2.0 */
/* Names of paths, from the file of --ports. */
#ifndef DFU_FLASH_PORTS_FILE_H
#define DFU_FLASH_PORTS_FILE_H

#include <stdbool.h>

/* Reads the file. Returns false, after printing why, if it can't be read or has an invalid line. */
bool ports_file_read(const char *file);

/* Returns the name of a path, or NULL if the file has none. */
const char *ports_file_name(const char *path);

#endif
