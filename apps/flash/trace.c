/* SPDX-License-Identifier: MIT OR Apache-2.0 */
/* The trace of --verbose. The line of an action has seven fields, separated by one space: its number, the request (or WAIT, or RESET),
 * wValue (or the milliseconds), wLength, the report to the host, the state in the device's answer, and the duration in milliseconds. The
 * lines of a session's beginning and end begin with a word. Other programs parse this format, so it must not change. */
#include "trace.h"
#include "answer.h"
#include "standard.h"
#include "../common/names.h"
#include "../common/text.h"

#include <inttypes.h>
#include <stdio.h>
#include <string.h>

#define SHORT_BYTES 8 /* longest answer whose bytes are shown */

/* Begins a line of the trace, which is a comment in a log. Returns the stream for the rest of it. */
static FILE *begin_line(const struct trace *trace)
{
    if (trace->log.file == NULL)
        return stderr;
    fputs("# ", trace->log.file);
    return trace->log.file;
}

static void print_bytes(FILE *out, const struct answer *answer)
{
    if (answer->count == 0 || answer->count > SHORT_BYTES)
        fprintf(out, "%zu-bytes", answer->count);
    else
        text_hex(out, answer->bytes, answer->count);
}

/* Prints the report to the host, and for `nothing` also the libusb error. */
static void print_answer(FILE *out, const struct answer *answer)
{
    static const char *const seen[] = {
        [DFU_SEEN_ACK] = "ack",     [DFU_SEEN_BYTES] = "",      [DFU_SEEN_STALL] = "stall",       [DFU_SEEN_NOTHING] = "nothing",
        [DFU_SEEN_WAIT] = "waited", [DFU_SEEN_RESET] = "reset", [DFU_SEEN_RESTART] = "restarted", [DFU_SEEN_LEFT] = "left",
    };
    static const char prefix[] = "LIBUSB_ERROR_";
    const char *error = answer->error < 0 ? libusb_error_name(answer->error) : "";
    if (answer->is_gone)
        fputs("gone", out);
    else if (answer->seen == DFU_SEEN_BYTES)
        print_bytes(out, answer);
    else
        fputs(answer->seen < sizeof seen / sizeof *seen ? seen[answer->seen] : "?", out);
    if (answer->seen == DFU_SEEN_NOTHING && !answer->is_gone && *error != '\0')
        fprintf(out, ":%s", strncmp(error, prefix, sizeof prefix - 1) == 0 ? error + sizeof prefix - 1 : error);
}

/* Returns the state in an answer to GETSTATUS or GETSTATE (USB DFU 1.1, sections 6.1.2 and 6.1.5), or "-" if there is none. */
static const char *state_in(uint8_t request, const struct answer *answer)
{
    if (answer->seen == DFU_SEEN_BYTES && request == REQUEST_GETSTATUS && answer->count == GETSTATUS_BYTES)
        return state_name(answer->bytes[GETSTATUS_STATE]);
    if (answer->seen == DFU_SEEN_BYTES && request == REQUEST_GETSTATE && answer->count == GETSTATE_BYTES)
        return state_name(answer->bytes[0]);
    return "-";
}

/* Prints the first four fields of an action's line. */
static FILE *print_front(struct trace *trace, const char *what, uint32_t value, unsigned length)
{
    FILE *out = begin_line(trace);
    if (trace->is_own)
        fputs("own:", out);
    else
        fprintf(out, "%" PRIu64, ++trace->number);
    fprintf(out, " %s %" PRIu32 " %u ", what, value, length);
    return out;
}

void trace_request(struct trace *trace, const uint8_t setup[8], const struct answer *answer, int64_t ms)
{
    FILE *out;
    if (!trace->is_on)
        return;
    out = print_front(trace, request_name(setup[1]), setup_value(setup), setup_length(setup));
    print_answer(out, answer);
    fprintf(out, " %s %" PRId64 "\n", state_in(setup[1], answer), ms);
}

void trace_wait(struct trace *trace, uint32_t asked, const struct answer *answer, int64_t ms)
{
    FILE *out;
    if (!trace->is_on)
        return;
    out = print_front(trace, "WAIT", asked, 0);
    print_answer(out, answer);
    fprintf(out, " - %" PRId64 "\n", ms);
}

void trace_reset(struct trace *trace, const struct answer *answer, int64_t ms)
{
    FILE *out;
    if (!trace->is_on)
        return;
    out = print_front(trace, "RESET", 0, 0);
    print_answer(out, answer);
    fprintf(out, " - %" PRId64 "\n", ms);
}

void trace_begin(const struct trace *trace, const char *goal, const struct found *info, unsigned transfer, uint32_t actions,
                 uint16_t restarts)
{
    FILE *out;
    if (!trace->is_on)
        return;
    out = begin_line(trace);
    fprintf(out, "begin %s %04x:%04x:%04x %s %u %u %s ", goal, info->vendor, info->product, info->release, info->path, info->interface,
            info->alternate, info->is_upgrade ? "DFU" : "run-time");
    text_hex(out, info->descriptor, info->descriptor_size);
    fprintf(out, "%s %u %" PRIu32 " %u\n", info->descriptor_size == 0 ? "-" : "", transfer, actions, restarts);
}

void trace_abort(const struct trace *trace)
{
    if (trace->is_on)
        fputs("abort\n", begin_line(trace));
}
