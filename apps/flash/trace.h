/* SPDX-License-Identifier: MIT OR Apache-2.0 */
/* The trace of --verbose: one line for each action and its result, on standard error or in a log (log.h). share/man/dfu-flash.1 describes
 * the format. */
#ifndef DFU_FLASH_TRACE_H
#define DFU_FLASH_TRACE_H

#include "log.h"

#include <stdbool.h>
#include <stdint.h>

struct answer;
struct found;

struct trace {
    bool is_on;
    struct log log;
    bool is_own;     /* the action is this program's own, not the host's, and has no number */
    uint64_t number; /* number of the last action */
};

/* Write a line for a request, for a wait of `asked` ms, or for a bus reset. `ms` is the duration of the action. */
void trace_request(struct trace *trace, const uint8_t setup[8], const struct answer *answer, int64_t ms);
void trace_wait(struct trace *trace, uint32_t asked, const struct answer *answer, int64_t ms);
void trace_reset(struct trace *trace, const struct answer *answer, int64_t ms);

/* Writes the beginning of a session: its goal, the device and its functional descriptor, the block size in bytes, and the limits. */
void trace_begin(const struct trace *trace, const char *goal, const struct found *info, unsigned transfer, uint32_t actions,
                 uint16_t restarts);

/* Writes the line `abort` when the session is aborted. */
void trace_abort(const struct trace *trace);

#endif
