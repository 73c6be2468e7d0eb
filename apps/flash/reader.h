/* SPDX-License-Identifier: MIT OR Apache-2.0 */
/* Reads a pipe line by line without blocking. */
#ifndef DFU_FLASH_READER_H
#define DFU_FLASH_READER_H

#include <stdbool.h>
#include <stddef.h>

struct reader {
    int from;            /* descriptor of the pipe; -1 after its end */
    char *text;          /* bytes of an incomplete line */
    size_t length, room; /* number of these bytes, and the size of the buffer */
};

void reader_begin(struct reader *reader, int from);

/* Reads the available bytes, and passes each complete line to `take`. If a line is too long, only its beginning is kept. */
void reader_read(struct reader *reader, void (*take)(void *with, const char *line), void *with);

/* Closes the pipe, and frees the incomplete line. */
void reader_drop(struct reader *reader);

#endif
