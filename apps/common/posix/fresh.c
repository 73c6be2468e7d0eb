/* SPDX-License-Identifier: MIT OR Apache-2.0 */
#define _POSIX_C_SOURCE 200809L
#include "../fresh.h"

#include <errno.h>
#include <fcntl.h>
#include <sys/stat.h>
#include <unistd.h>

static int make(const char *name)
{
    struct stat found;
    int file = open(name, O_WRONLY | O_CREAT | O_EXCL | O_CLOEXEC, 0666);
    if (file >= 0 || errno != EEXIST)
        return file;
    if (stat(name, &found) == 0 && (S_ISFIFO(found.st_mode) || S_ISCHR(found.st_mode)))
        return open(name, O_WRONLY | O_NOCTTY | O_CLOEXEC);
    errno = EEXIST;
    return -1;
}

FILE *fresh_open(const char *name)
{
    int made = make(name);
    FILE *file = made < 0 ? NULL : fdopen(made, "w");
    if (file != NULL)
        setvbuf(file, NULL, _IOLBF, 0);
    else if (made >= 0)
        close(made);
    return file;
}

bool fresh_close(FILE *file)
{
    bool is_whole = ferror(file) == 0;
    return fclose(file) == 0 && is_whole;
}
