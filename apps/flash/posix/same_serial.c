/* SPDX-License-Identifier: MIT OR Apache-2.0 */
#include "../same_serial.h"
#include "../messages.h"
#include "../station.h"

#include <stdio.h>
#include <stdlib.h>
#include <string.h>

/* A board that was flashed in this run. */
struct flashed {
    struct flashed *next;
    char path[PATH_ROOM], serial[];
};

static struct flashed *boards;

static const struct flashed *find(const char *serial)
{
    for (const struct flashed *board = boards; board != NULL; board = board->next)
        if (strcmp(board->serial, serial) == 0)
            return board;
    return NULL;
}

static void say_same(const struct bay *bay, const struct flashed *before, const char *serial)
{
    const char *port = station_port(before->path);
    fprintf(stderr, "%s: dfu-flash: the serial number ", bay->path);
    say_text(stderr, "", serial, " was flashed before in this run, at ");
    say_text(stderr, "", port != NULL ? port : before->path, ": two boards share it, or one was flashed twice\n");
}

/* If there is no memory the board isn't stored, and a later board with the same number isn't reported. */
void same_serial_note(const struct bay *bay, const char *serial)
{
    const struct flashed *before = *serial == '\0' ? NULL : find(serial);
    struct flashed *board;
    if (before != NULL)
        say_same(bay, before, serial);
    if (*serial == '\0' || before != NULL)
        return;
    board = malloc(sizeof *board + strlen(serial) + 1);
    if (board == NULL)
        return;
    memcpy(board->path, bay->path, sizeof board->path);
    strcpy(board->serial, serial);
    board->next = boards;
    boards = board;
}
