/* SPDX-License-Identifier: MIT OR Apache-2.0 */
/* Writes the lines on standard error. */
#ifndef DFU_GADGET_MESSAGES_H
#define DFU_GADGET_MESSAGES_H

#include "status.h"

#include <stdbool.h>
#include <stddef.h>
#include <stdint.h>

/* Prints a file name or another untrusted name, escaped if necessary, and the problem. Returns false. */
bool say_wrong(const char *name, const char *why);

/* Prints a line like say_wrong, with the reason in errno. Returns false. */
bool say_failed(const char *name, const char *what);

/* Prints a line about an event, for example a change of mode. */
void say_event(const char *format, ...) __attribute__((format(printf, 1, 2)));

/* If true, a line is printed for each request, and for each change of state by time or by a bus reset. */
extern bool say_is_verbose;

/* From now on writes the lines of requests and of state changes to a new file instead of standard error, as comments. Each request and each
 * reset also gets a line for `dfu judge`. Returns false, after printing why, if the file can't be created. */
bool say_to(const char *name);

/* Closes the log. Prints an error if a line could not be written. */
void say_no_more(const char *name);

/* Writes a request and its answer for `dfu judge`, with the `length` bytes of its data stage. */
void say_exchange(const uint8_t setup[8], const uint8_t *body, size_t length, int32_t answer, const uint8_t *out);

/* Prints the line of a request; share/man/dfu-gadget.1, REQUESTS, describes its fields. `answer` is the number of bytes of `out` that were
 * sent, or negative for a stall. */
void say_request(const uint8_t setup[8], int32_t answer, const uint8_t *out, int32_t state, int64_t ms);

/* Print the line of a state change without a request: by time, or by a bus reset, which is also written to the log for `dfu judge`. */
void say_change(const char *what, int64_t ms, int32_t state);
void say_reset(int32_t state);

#endif
