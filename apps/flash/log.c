/* SPDX-License-Identifier: MIT OR Apache-2.0 */
/* Writes the log of --verbose=FILE. A failed reset and the absence of a device appear only in its comments. */
#include "log.h"
#include "answer.h"
#include "device.h"
#include "../common/fresh.h"
#include "messages.h"
#include "standard.h"
#include "../common/text.h"

#include <errno.h>
#include <string.h>

bool log_open(struct log *log, const char *name)
{
    if (name == NULL)
        return true;
    log->name = name;
    log->file = fresh_open(name);
    if (log->file != NULL)
        return true;
    return say_failed(name, " can't be made", errno == EEXIST ? "it is there already" : strerror(errno));
}

/* Writes a comment line with a text, unless the text is unknown. */
static void print_known(FILE *out, const char *front, const char *text)
{
    if (text != NULL && *text != '\0')
        say_text(out, front, text, "\n");
}

void log_board(struct log *log, const char *serial, const char *port, const char *entry)
{
    if (log->file == NULL)
        return;
    print_known(log->file, "# serial ", serial);
    print_known(log->file, "# port ", port);
    print_known(log->file, "# stamp ", entry);
}

void log_device(struct log *log, const struct device *device)
{
    if (log->file != NULL && log->opened != 0 && log->opened != device->opened)
        log_reset(log);
    log->opened = device->opened;
}

static void print_answer(FILE *out, const struct answer *answer)
{
    if (answer->seen == DFU_SEEN_BYTES && answer->count > 0)
        text_hex(out, answer->bytes, answer->count);
    else if (answer->seen == DFU_SEEN_ACK || answer->seen == DFU_SEEN_BYTES)
        fputs("ack", out);
    else
        fputs(answer->seen == DFU_SEEN_STALL ? "stall" : "nothing", out);
}

void log_request(struct log *log, const uint8_t setup[8], unsigned interface, const uint8_t *body, const struct answer *answer)
{
    const uint8_t index[2] = {(uint8_t)(interface & 0xff), (uint8_t)(interface >> 8)};
    unsigned length = setup_length(setup);
    if (log->file == NULL)
        return;
    text_hex(log->file, setup, 4);
    text_hex(log->file, index, 2);
    text_hex(log->file, setup + 6, 2);
    fputc(' ', log->file);
    if ((setup[0] & KIND_IS_IN) != 0 || length == 0)
        fputc('-', log->file);
    else
        text_hex(log->file, body, length);
    fputc(' ', log->file);
    print_answer(log->file, answer);
    fputc('\n', log->file);
    fflush(log->file); /* the C library of Windows has no line buffering */
}

void log_reset(struct log *log)
{
    if (log->file != NULL && fputs("reset\n", log->file) >= 0)
        fflush(log->file);
}

void log_end(struct log *log, const char *report, int status, const char *time)
{
    if (log->file != NULL)
        fprintf(log->file, "# end %s %d %s\n", report, status, time);
}

bool log_close(struct log *log)
{
    if (log->file != NULL && !fresh_close(log->file)) {
        log->is_cut = true;
        say_failed(log->name, " was not written whole", strerror(errno));
    }
    log->file = NULL;
    return !log->is_cut;
}
