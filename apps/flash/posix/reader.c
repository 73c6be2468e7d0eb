/* SPDX-License-Identifier: MIT OR Apache-2.0 */
/* Reads a pipe line by line. */
#include "../reader.h"

#include <errno.h>
#include <fcntl.h>
#include <stdlib.h>
#include <string.h>
#include <unistd.h>

#define MAX_LINE 65536

void reader_begin(struct reader *reader, int from)
{
    memset(reader, 0, sizeof *reader);
    reader->from = from;
    fcntl(from, F_SETFL, O_NONBLOCK);
}

static void close_it(struct reader *reader)
{
    if (reader->from >= 0)
        close(reader->from);
    reader->from = -1;
}

/* Makes room for one more byte and the terminating NUL. */
static bool has_room(struct reader *reader)
{
    size_t room = reader->room == 0 ? 256 : 2 * reader->room;
    char *more;
    if (reader->length + 1 < reader->room)
        return true;
    more = room > MAX_LINE ? NULL : realloc(reader->text, room);
    if (more == NULL)
        return false;
    reader->text = more;
    reader->room = room;
    return true;
}

/* Adds one byte. Returns true if the line is complete. */
static bool add(struct reader *reader, char byte)
{
    bool has = has_room(reader);
    if (byte != '\n' && has)
        reader->text[reader->length++] = byte;
    if (byte != '\n' || reader->text == NULL)
        return false;
    reader->text[reader->length] = '\0';
    reader->length = 0;
    return true;
}

void reader_read(struct reader *reader, void (*take)(void *with, const char *line), void *with)
{
    char bytes[4096];
    ssize_t count = reader->from < 0 ? 0 : read(reader->from, bytes, sizeof bytes);
    for (ssize_t at = 0; at < count; at++)
        if (add(reader, bytes[at]))
            take(with, reader->text);
    if (count == 0 || (count < 0 && errno != EAGAIN && errno != EINTR))
        close_it(reader);
}

void reader_drop(struct reader *reader)
{
    close_it(reader);
    free(reader->text);
    reader->text = NULL;
}
