/* SPDX-License-Identifier: MIT OR Apache-2.0 */
/* On Windows only one process appends, because there is no --all, so no other process can write between two lines. */
#include "../append.h"
#include "../messages.h"
#include "utf16.h"

#include <errno.h>
#include <fcntl.h>
#include <io.h>
#include <stdio.h>
#include <stdlib.h>
#include <string.h>
#include <sys/stat.h>

int append_open(const char *name, char *front, size_t room, const char **why)
{
    wchar_t *wide = utf16(name);
    int file = wide == NULL ? -1 : _wopen(wide, _O_RDWR | _O_APPEND | _O_CREAT | _O_BINARY, _S_IREAD | _S_IWRITE);
    int count = file < 0 ? -1 : _read(file, front, (unsigned)room - 1);
    free(wide);
    *why = strerror(errno);
    if (file >= 0 && count < 0)
        _close(file);
    if (count < 0)
        return -1;
    front[count] = '\0';
    return file;
}

bool append_line(int file, const char *line, size_t length)
{
    return _write(file, line, (unsigned)length) == (int)length;
}

/* No other process appends, so a broken last line can be removed at once. */
void append_mend(int file, const char *name, bool (*is_whole)(const char *line, size_t length))
{
    static char tail[65536];
    long size = _lseek(file, 0, SEEK_END), room = size < (long)sizeof tail ? size : (long)sizeof tail, at = room;
    if (size <= 0 || _lseek(file, size - room, SEEK_SET) < 0 || _read(file, tail, (unsigned)room) != room)
        return;
    while (at > 0 && tail[at - 1] != '\n')
        at--;
    if (at == room || (at == 0 && size > room))
        return;
    if (is_whole(tail + at, (size_t)(room - at)))
        append_line(file, "\n", 1);
    else if (_chsize(file, size - room + at) == 0)
        say_text(stderr, "dfu-flash: ", name, ": its last line was broken off, and is taken away\n");
}

/* Always false, because an open file can't be removed on Windows. */
bool append_has_moved(void)
{
    return false;
}

const char *append_why(void)
{
    return errno == 0 ? "there is no room for the whole line" : strerror(errno);
}
