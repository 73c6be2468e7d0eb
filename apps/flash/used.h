/* SPDX-License-Identifier: MIT OR Apache-2.0 */
/* The record of used entries: the file LIST.used beside the list. One process, with its children, uses it at a time. */
#ifndef DFU_FLASH_USED_H
#define DFU_FLASH_USED_H

#include <stdbool.h>
#include <stddef.h>

/* Opens the record, or creates it, and locks it for this process. `text` receives the record's content with a NUL, and must be freed. An
 * incomplete last line is removed. With `only_looks` nothing is created, locked or changed. Returns false with the reason in `why`. */
bool used_open(const char *list, bool only_looks, char **text, const char **why);

/* Counts the bytes of the complete lines. A last line without its newline counts if it has its four fields, because a board may have that
 * entry. */
size_t used_whole(const char *text);

/* Returns true if the name of the record still refers to the open file. */
bool used_is_there(void);

/* Appends a line, and waits until it is on the disk. Returns true only if the whole line was written. */
bool used_add(const char *line, size_t length);

#endif
