/* SPDX-License-Identifier: MIT OR Apache-2.0 */
/* Lines on a worker's standard output that are messages to the first process, marked by their first character. Any other line is the
 * record. */
#define _POSIX_C_SOURCE 200809L
#include "../worker.h"
#include "../../common/text.h"

#include <stdio.h>
#include <stdlib.h>
#include <string.h>

#define ROW_MARK '\t'
#define SERIAL_MARK '\v'
#define BEGUN_MARK '\f'
#define TAKEN_MARK '\a'

void worker_print_serial(bool is_upgrade, const char *serial)
{
    printf("%c%d", SERIAL_MARK, is_upgrade);
    text_hex(stdout, (const uint8_t *)serial, strlen(serial));
    putchar('\n');
    fflush(stdout);
}

bool worker_print_begun(uint32_t number, bool has_stamp)
{
    printf("%c%u %d\n", BEGUN_MARK, (unsigned)number, has_stamp);
    return fflush(stdout) == 0 && !ferror(stdout);
}

void worker_print_taken(bool is_proved)
{
    printf("%c%d\n", TAKEN_MARK, is_proved);
}

/* Decodes a serial number from the hexadecimal digits of a line. */
static void read_serial(const char *line, char serial[TEXT_ROOM])
{
    size_t length = 0;
    unsigned byte;
    for (const char *at = line; length < TEXT_ROOM - 1 && sscanf(at, "%2x", &byte) == 1 && at[1] != '\0'; at += 2)
        serial[length++] = (char)byte;
    serial[length] = '\0';
}

/* Stores the serial number of a device in one mode. The first such line replaces the data about the previous device. */
static void take_serial(struct worker *worker, const char *line)
{
    struct bay *bay = worker->bay;
    int mode = line[0] == '1';
    char serial[TEXT_ROOM];
    read_serial(line + (line[0] != '\0'), serial);
    if (!worker->has_serial) {
        bay->has_retried = bay->has_retried && (!bay->has_serial[mode] || strcmp(bay->serial[mode], serial) == 0);
        bay->has_serial[!mode] = false;
        worker->mode = mode;
    }
    memcpy(bay->serial[mode], serial, sizeof serial);
    bay->has_serial[mode] = worker->has_serial = true;
    /* The device isn't the previous one, so its messages are printed. */
    worker->is_early = false;
}

static void take_begun(struct worker *worker, const char *line)
{
    char *rest;
    worker->tries = (uint32_t)strtoul(line, &rest, 10);
    worker->has_stamp = worker->has_stamp || strcmp(rest, " 1") == 0;
    worker->is_early = false;
}

void worker_take(void *with, const char *line)
{
    struct worker *worker = with;
    if (line[0] == ROW_MARK)
        snprintf(worker->row, sizeof worker->row, "%s", line + 1);
    else if (line[0] == BEGUN_MARK)
        take_begun(worker, line + 1);
    else if (line[0] == SERIAL_MARK)
        take_serial(worker, line + 1);
    else if (line[0] == TAKEN_MARK) {
        worker->has_image = true;
        worker->is_proved = line[1] == '1';
    } else {
        free(worker->record);
        worker->record = strdup(line);
    }
}

void worker_keep(struct worker *worker, const char *line)
{
    size_t before = worker->kept == NULL ? 0 : strlen(worker->kept), length = strlen(line);
    char *more = realloc(worker->kept, before + length + 2);
    if (more == NULL)
        return;
    memcpy(more + before, line, length);
    memcpy(more + before + length, "\n", 2);
    worker->kept = more;
}
