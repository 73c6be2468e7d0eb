/* SPDX-License-Identifier: MIT OR Apache-2.0 */
/* A line of the report under construction, as JSON or as CSV (RFC 4180). */
#ifndef FLASH_REPORT_LINE_H
#define FLASH_REPORT_LINE_H

#include <stdbool.h>
#include <stddef.h>

#define REPORT_LINE_ROOM 16384

/* A line that doesn't fit is cut. The caller must not write it if is_full is set. */
struct report_line {
    char text[REPORT_LINE_ROOM];
    size_t length;
    bool is_full, is_csv;
};

void report_line_put(struct report_line *line, const char *bytes, size_t length);
/* Appends one member, after a comma unless it is the first. In CSV an unknown member, whose text is NULL, is an empty column; in JSON it is
 * left out. */
void report_line_member(struct report_line *line, const char *name, const char *text, bool is_number);

#endif
