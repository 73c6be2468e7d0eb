/* SPDX-License-Identifier: MIT OR Apache-2.0 */
/* Writes the lines on standard error. The line of a request has seven fields, separated by one space, like the line of an action in
 * dfu-flash's trace. */
#include "messages.h"
#include "../common/fresh.h"
#include "../common/names.h"
#include "../common/text.h"

#include <errno.h>
#include <inttypes.h>
#include <stdarg.h>
#include <stdio.h>
#include <string.h>

#define SHORT_BYTES 8 /* longest answer whose bytes are shown */

bool say_is_verbose;

bool say_wrong(const char *name, const char *why)
{
    fputs("dfu-gadget: ", stderr);
    text_print(stderr, name);
    fprintf(stderr, ": %s\n", why);
    return false;
}

bool say_failed(const char *name, const char *what)
{
    int error = errno;
    fputs("dfu-gadget: ", stderr);
    text_print(stderr, name);
    fprintf(stderr, " %s: %s\n", what, strerror(error));
    return false;
}

void say_event(const char *format, ...)
{
    va_list values;
    va_start(values, format);
    vfprintf(stderr, format, values);
    va_end(values);
    fputc('\n', stderr);
}

static FILE *log_file;

bool say_to(const char *name)
{
    log_file = fresh_open(name);
    return log_file != NULL || say_failed(name, "can't be made");
}

void say_no_more(const char *name)
{
    if (log_file != NULL && !fresh_close(log_file))
        say_failed(name, "was not written whole");
    log_file = NULL;
}

/* Begins a line, as a comment if there is a log. Returns the stream for the rest of it. */
static FILE *begin_line(void)
{
    if (log_file == NULL)
        return stderr;
    fputs("# ", log_file);
    return log_file;
}

static void print_answer(FILE *file, const uint8_t setup[8], int32_t answer, const uint8_t *out)
{
    if (answer < 0)
        fputs("stall", file);
    else if ((setup[0] & 0x80) == 0)
        fputs("ack", file);
    else if (answer == 0 || answer > SHORT_BYTES)
        fprintf(file, "%" PRId32 "-bytes", answer);
    else
        text_hex(file, out, (size_t)answer);
}

void say_request(const uint8_t setup[8], int32_t answer, const uint8_t *out, int32_t state, int64_t ms)
{
    static uint64_t number;
    FILE *file;
    number++;
    if (!say_is_verbose)
        return;
    file = begin_line();
    fprintf(file, "%" PRIu64 " %s %u %u ", number, request_name(setup[1]), (unsigned)(setup[2] | setup[3] << 8),
            (unsigned)(setup[6] | setup[7] << 8));
    print_answer(file, setup, answer, out);
    fprintf(file, " %s %" PRId64 "\n", state_name(state), ms);
}

void say_exchange(const uint8_t setup[8], const uint8_t *body, size_t length, int32_t answer, const uint8_t *out)
{
    if (log_file == NULL)
        return;
    text_hex(log_file, setup, 8);
    fputs(length > 0 ? " " : " -", log_file);
    text_hex(log_file, body, length);
    fputs(answer < 0 ? " stall" : answer == 0 ? " ack" : " ", log_file);
    text_hex(log_file, out, answer < 0 ? 0 : (size_t)answer);
    fputc('\n', log_file);
}

void say_change(const char *what, int64_t ms, int32_t state)
{
    if (say_is_verbose)
        fprintf(begin_line(), "%s: %" PRId64 " ms, %s\n", what, ms, state_name(state));
}

void say_reset(int32_t state)
{
    say_change("reset", 0, state);
    if (log_file != NULL)
        fputs("reset\n", log_file);
}
