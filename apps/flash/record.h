/* SPDX-License-Identifier: MIT OR Apache-2.0 */
/* Prints the outcome of a run on standard output, as a line or as a JSON record. */
#ifndef DFU_FLASH_RECORD_H
#define DFU_FLASH_RECORD_H

#include "messages.h"
#include "session.h"

#include <stdbool.h>

/* For a run with several devices: each later record contains the path, the serial number, the log and the seconds from now on, and each
 * later text line begins with the path and the serial number. */
void record_each(const char *path, const struct found *info, struct log *log);

/* For a run with one device: records without a session contain the known data of the device. Each record closes its log first. */
void record_of(const struct found *info, struct log *log);

/* Returns the exit status of a session: the given status, or STATUS_FILE instead of 0 and 8 if its log wasn't written completely. */
int record_status(int status);

/* Sets the time (clock.h) from which the seconds of a record count. */
void record_since(int64_t ms);

/* Begins a JSON record: status, report, text, goal of the session, and the device. */
void record_begin(const struct session *session, int status, const char *report, const char *words);

/* Prints the report's name and its meaning as one line, or with `is_json` as one record. Returns false if standard output failed or the
 * line of --report can't be written. */
bool record_print(const struct session *session, const struct verdict *verdict, bool is_json);

/* Prints an outcome that consists only of a status, a name and a text. Returns false as record_print does. */
bool record_short(int status, const char *report, const char *words, bool is_json);

/* Prints the outcome of a session that was refused. Returns false as record_print does. */
bool record_refused(int32_t refusal, bool is_json);

/* Prints, with `is_json` or for one of several devices, the record of a run without a session, because a file failed, no device matches or
 * a device can't be accessed. The reason was printed on standard error before. Returns the given status, or STATUS_FILE if standard output
 * failed or the line of --report can't be written. If the status has no such reason, the record and the returned status are those of an
 * internal error. */
int record_none(int status, bool is_json);

/* Returns true if all output was written to standard output; else reports the failure on standard error. */
bool record_out(void);

#endif
