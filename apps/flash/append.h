/* SPDX-License-Identifier: MIT OR Apache-2.0 */
/* Appends whole lines to a file that several processes may use. */
#ifndef DFU_FLASH_APPEND_H
#define DFU_FLASH_APPEND_H

#include <stdbool.h>
#include <stddef.h>

/* Opens a regular file for appending, or creates it. Doesn't follow a symbolic link. Writes the beginning of the file's content to `front`,
 * with a NUL at the end. Child processes that are started afterwards inherit the descriptor. Returns -1 on failure, with the reason in
 * `why`. */
int append_open(const char *name, char *front, size_t room, const char **why);

/* Removes the bytes after the last newline and reports that, unless `is_whole` returns true because they are a whole line. */
void append_mend(int file, const char *name, bool (*is_whole)(const char *line, size_t length));

/* Locks the file against other processes that append lines, or unlocks it. Only the holder of the lock can tell a broken line from one that
 * is being written, because the system may show the beginning of a line before its rest, for example if it crosses a page of the file.
 * Gives up after some time, because a file system may refuse locks. Leaves errno unchanged. */
void append_lock(int file, bool is_on);

/* Returns the reason why the last line wasn't added. */
const char *append_why(void);

/* Returns true if the last line wasn't added because the file was removed or replaced. */
bool append_has_moved(void);

/* Adds a whole line in one system call. Returns false if that fails. */
bool append_line(int file, const char *line, size_t length);

#endif
