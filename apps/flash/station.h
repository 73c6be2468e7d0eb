/* SPDX-License-Identifier: MIT OR Apache-2.0 */
/* Fields of a record for an audit: the time, the port, and the file with its CRC. Also writes the report of --report, which has a line for
 * each board. */
#ifndef DFU_FLASH_STATION_H
#define DFU_FLASH_STATION_H

#include "find.h"
#include "image.h"
#include "words.h"

#include <stdbool.h>
#include <stdint.h>

/* Opens the files of --report and --ports. Returns false, after printing why, if one can't be used. */
bool station_begin(const struct words *words);

/* Removes the report's last line if it was broken off. `header` is the first line of CSV, or NULL for JSON. */
void report_mend(int file, const char *name, const char *header);

/* Sets the image for all later records. */
void station_image(const struct words *words, const struct image *image);

/* Returns the name of a path from --ports, or NULL if it has none. */
const char *station_port(const char *path);

/* Writes the current time in UTC, such as 2026-11-30T09:15:00Z, or an empty text if the system has no clock. */
void station_time(char text[32]);

/* Prints the time, the port, the stamp entry, the number of sessions, and the file with its CRC as JSON members. */
void station_json(const char *path);

/* Sets the number of the board's session: 1 is the first, and 0 is none. Records contain it as `tries`. */
void station_try(uint32_t number);

/* With --all, prints the board's --stamp entry, and the number of its sessions if there were several. */
void station_print(void);

/* Stores the name of the status code with which the board refused, or "", for the line in the report. */
void station_code(const char *name);

/* Stores the name of the log for the line in a JSON report, or NULL for none. */
void station_log(const char *name);

/* Appends a line to the report: a board's result, with details after the text. `path` and `info` are NULL if they are unknown. Returns
 * false, after printing why, if the line can't be written. */
bool station_add(int status, const char *report, const char *words, const char *path, const struct found *info, double seconds);

#endif
