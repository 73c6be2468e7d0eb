/* SPDX-License-Identifier: MIT OR Apache-2.0 */
/* Reads and creates files. */
#ifndef DFU_FLASH_FILES_H
#define DFU_FLASH_FILES_H

#include <stdbool.h>
#include <stddef.h>
#include <stdint.h>
#include <stdio.h>

#define FILE_SPARE 16 /* spare bytes after the content of a file that was read */

/* Reads a file, or standard input if the name is `-`, up to one byte more than the largest DFU file. Returns false, after printing why, if
 * it can't be read. On success `bytes` is not NULL, and the caller frees it. */
bool file_read(const char *name, uint8_t **bytes, size_t *length);

/* Opens a file for reading in binary mode. Returns NULL on failure, with the reason in errno. */
FILE *file_open(const char *name);

/* Checks, before anything is sent, if OUT may be created. If not, prints why on standard error and returns false. */
bool file_may_make(const char *name, bool is_forced);

/* Creates OUT with these bytes, whole or not at all. Returns false, after printing why, if that failed. */
bool file_make(const char *name, bool is_forced, const uint8_t *bytes, size_t length);

#endif
