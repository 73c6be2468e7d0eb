/* SPDX-License-Identifier: MIT OR Apache-2.0 */
/* The list of --stamp. */
#ifndef DFU_FLASH_STAMP_LIST_H
#define DFU_FLASH_STAMP_LIST_H

#include "stamp.h"

enum stamp_state { STAMP_FREE, STAMP_HELD, STAMP_USED };

struct stamp {
    char *name, *value; /* name in records, and the text that is written */
    size_t line;
    enum stamp_state state;
    const char *lost_at; /* path of the board that took it, if the result of its session isn't recorded */
};

struct stamp_list {
    struct stamp *stamps;
    size_t count;
    const char *file;
    size_t bytes; /* size of the stamp */
};

extern struct stamp_list stamp_list;

/* Reads the list. Returns false, after printing why, if it can't be used. */
bool stamp_list_read(void);

/* Writes the entries to `sorted` twice: sorted by name, then sorted by the written text. Returns false, after printing why, if two entries
 * have the same name or would write the same text. */
bool stamp_list_sort(struct stamp **sorted);

/* Return the entry with this name, and the one that writes this text, or NULL. `sorted` is the result of stamp_list_sort. */
struct stamp *stamp_list_named(char *name, struct stamp **sorted);
struct stamp *stamp_list_written(char *text, struct stamp **sorted);

/* Writes the bytes of an entry, padded with 00 to the size of the stamp. Returns NULL, or the reason if the value is invalid. */
const char *stamp_list_bytes(const char *value, uint8_t bytes[STAMP_BYTES]);

/* Prints an error of the list, or of LIST.used. Line 0 means no line number. Returns false. */
bool stamp_list_fail(const char *ending, size_t line, const char *why);

/* Warns about the first unused entry that may contain more than was meant, such as another column, and prints how many more there are. */
void stamp_list_warn(void);

/* Passes each line to `take`, numbered from 1, until `take` returns false. Returns false in that case. */
bool stamp_list_lines(char *text, void *with, bool (*take)(size_t number, char *line, void *with));

#endif
