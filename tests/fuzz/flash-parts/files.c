/* Wrappers of calls for files, which fail at random. */
#define _GNU_SOURCE
#include "random.h"
#include "temper.h"

#include <errno.h>
#include <stdlib.h>
#include <sys/stat.h>
#include <unistd.h>

ssize_t __real_write(int file, const void *bytes, size_t length);
int __real_fchmod(int file, mode_t mode);
int __real_mkstemp(char *name);
int __real_link(const char *from, const char *to);
int __real_own_rename(const char *from, const char *to);
ssize_t __wrap_write(int file, const void *bytes, size_t length);
int __wrap_fsync(int file);
int __wrap_fchmod(int file, mode_t mode);
int __wrap_mkstemp(char *name);
int __wrap_link(const char *from, const char *to);
int __wrap_own_rename(const char *from, const char *to);
int __wrap_isatty(int file);

static int with(int error)
{
    errno = error;
    return -1;
}

static int any_error(void)
{
    static const int errors[] = {EIO, ENOSPC, EACCES, EINVAL, ENOSYS, EPERM, EEXIST};
    return errors[below(sizeof errors / sizeof errors[0])];
}

ssize_t __wrap_write(int file, const void *bytes, size_t length)
{
    if (chance(temper.files_fail))
        return chance(2) ? with(EINTR) : with(any_error());
    return __real_write(file, bytes, chance(temper.files_fail) && length > 1 ? below((uint32_t)length) + 1 : length);
}

int __wrap_fsync(int file)
{
    (void)file;
    return chance(temper.files_fail) ? with(any_error()) : 0;
}

int __wrap_fchmod(int file, mode_t mode)
{
    return chance(temper.files_fail) ? with(any_error()) : __real_fchmod(file, mode);
}

int __wrap_mkstemp(char *name)
{
    return chance(temper.files_fail) ? with(any_error()) : __real_mkstemp(name);
}

int __wrap_link(const char *from, const char *to)
{
    return chance(temper.files_fail) ? with(any_error()) : __real_link(from, to);
}

int __wrap_own_rename(const char *from, const char *to)
{
    return chance(temper.files_fail) ? with(any_error()) : __real_own_rename(from, to);
}

int __wrap_isatty(int file)
{
    (void)file;
    return temper.is_terminal;
}
