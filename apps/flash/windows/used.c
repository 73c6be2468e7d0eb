/* SPDX-License-Identifier: MIT OR Apache-2.0 */
/* The record is opened without sharing, which locks it, because no other process can open it. */
#include "../used.h"
#include "utf16.h"

#include <errno.h>
#include <fcntl.h>
#include <io.h>
#include <share.h>
#include <stdio.h>
#include <stdlib.h>
#include <string.h>
#include <sys/stat.h>

#define ENDING ".used"

static int used = -1;

static int open_it(const char *list, bool only_looks)
{
    char *name = malloc(strlen(list) + sizeof ENDING);
    wchar_t *wide;
    int file;
    if (name == NULL)
        return -1;
    sprintf(name, "%s" ENDING, list);
    wide = utf16(name);
    free(name);
    file = wide == NULL ? -1
                        : _wsopen(wide, (only_looks ? _O_RDONLY : _O_RDWR | _O_APPEND | _O_CREAT) | _O_BINARY,
                                  only_looks ? _SH_DENYNO : _SH_DENYRW, _S_IREAD | _S_IWRITE);
    free(wide);
    return file;
}

/* Reads the whole record. Refuses one with a NUL, because its text would seem to end there. */
static bool read_all(int file, char **text, const char **why)
{
    long size = _lseek(file, 0, SEEK_END);
    int count;
    *text = size < 0 || _lseek(file, 0, SEEK_SET) != 0 ? NULL : malloc((size_t)size + 1);
    count = *text == NULL ? -1 : _read(file, *text, (unsigned)size);
    *why = strerror(errno);
    if (count != size)
        return false;
    (*text)[count] = '\0';
    *why = "there is a NUL in it";
    return strlen(*text) == (size_t)count;
}

static bool end_last(int file, const char *text, size_t length)
{
    return length == 0 || text[length - 1] == '\n' || _write(file, "\n", 1) == 1;
}

/* Removes an incomplete last line. Its board wasn't flashed, because a session begins only after its line is on the disk. If only the
 * newline is missing, adds it. With `only_looks` the file stays unchanged. */
static bool drop_torn(int file, char *text, bool only_looks, const char **why)
{
    size_t whole = used_whole(text);
    bool is_torn = text[whole] != '\0';
    text[whole] = '\0';
    if (only_looks || (is_torn ? _chsize(file, (long)whole) == 0 : end_last(file, text, whole)))
        return true;
    *why = strerror(errno);
    return false;
}

bool used_open(const char *list, bool only_looks, char **text, const char **why)
{
    int file = open_it(list, only_looks);
    bool is_open;
    *text = NULL;
    *why = errno == EACCES ? "it may not be written, or another dfu-flash is at work with it" : strerror(errno);
    if (file < 0 && only_looks && errno == ENOENT) {
        *text = calloc(1, 1);
        return *text != NULL;
    }
    is_open = file >= 0 && read_all(file, text, why) && drop_torn(file, *text, only_looks, why);
    if (file >= 0 && (only_looks || !is_open))
        _close(file);
    else
        used = file;
    return is_open;
}

bool used_add(const char *line, size_t length)
{
    return used >= 0 && _write(used, line, (unsigned)length) == (int)length && _commit(used) == 0;
}

/* Always true, because no other program can move an open file on Windows. */
bool used_is_there(void)
{
    return true;
}
