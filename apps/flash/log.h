/* SPDX-License-Identifier: MIT OR Apache-2.0 */
/* The log of --verbose=FILE. It contains each line of the trace after `# `, and in between the events that `dfu judge` reads: requests with
 * their bodies and answers, and resets. If a device was away and is found again, a reset is written, as in a USB capture. */
#ifndef DFU_FLASH_LOG_H
#define DFU_FLASH_LOG_H

#include <stdbool.h>
#include <stddef.h>
#include <stdint.h>
#include <stdio.h>

struct answer;
struct device;

struct log {
    FILE *file; /* NULL if there is no log */
    const char *name;
    uint64_t opened; /* number of times that the device had been opened at the last request */
    bool is_cut;     /* the log wasn't written completely */
};

/* Creates the file, or does nothing if `name` is NULL. No file may have the name, unless it is a pipe or a terminal. Returns false, after
 * printing why, if the file can't be created. */
bool log_open(struct log *log, const char *name);

/* Writes comments with the board's serial number, the name of its port from --ports and its entry of --stamp. Each is skipped if it is NULL
 * or empty. */
void log_board(struct log *log, const char *serial, const char *port, const char *entry);

/* Writes a reset before the next request if the device was opened again since the last request. */
void log_device(struct log *log, const struct device *device);

/* Writes a request that was sent to the interface, with its body, if any, and its answer. */
void log_request(struct log *log, const uint8_t setup[8], unsigned interface, const uint8_t *body, const struct answer *answer);

/* Writes a bus reset. */
void log_reset(struct log *log);

/* Writes the last line: the report, the exit status and the time (station.h). */
void log_end(struct log *log, const char *report, int status, const char *time);

/* Closes the log. Returns false, after printing why, if a write failed. */
bool log_close(struct log *log);

#endif
