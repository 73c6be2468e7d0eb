/* SPDX-License-Identifier: MIT OR Apache-2.0 */
/* A progress bar as one line of text. */
#ifndef DFU_FLASH_BAR_H
#define DFU_FLASH_BAR_H

#include <stdint.h>

#define BAR_ROOM 160

/* Writes the line: the text `what`, a bar with the percentage, the number of bytes that are done, the rate and the remaining time, after
 * `passed_ms`. If `total` is 0 the total is unknown, and the line has only bytes and rate. The bar has up to `most` characters, but the
 * line stays shorter than `columns`. If there is no room for five characters, the bar is left out and the line is cut. */
void bar_line(char line[BAR_ROOM], const char *what, uint64_t bytes, uint64_t total, int64_t passed_ms, int most, int columns);

/* Return the columns and the lines of the terminal on standard error, or 80 and 24 if they are unknown. */
int bar_columns(void);
int bar_lines(void);

#endif
