/* SPDX-License-Identifier: MIT OR Apache-2.0 */
#include "utf16.h"

#include <errno.h>
#include <stdlib.h>
#include <windows.h>

wchar_t *utf16(const char *text)
{
    int units = MultiByteToWideChar(CP_UTF8, 0, text, -1, NULL, 0);
    wchar_t *wide = units <= 0 ? NULL : malloc(sizeof *wide * (size_t)units);
    if (wide != NULL)
        MultiByteToWideChar(CP_UTF8, 0, text, -1, wide, units);
    else
        errno = ENOMEM;
    return wide;
}

char *utf8(const wchar_t *text)
{
    int bytes = WideCharToMultiByte(CP_UTF8, 0, text, -1, NULL, 0, NULL, NULL);
    char *narrow = bytes <= 0 ? NULL : malloc((size_t)bytes);
    if (narrow != NULL)
        WideCharToMultiByte(CP_UTF8, 0, text, -1, narrow, bytes, NULL, NULL);
    else
        errno = ENOMEM;
    return narrow;
}

void errno_from_windows(void)
{
    static const struct {
        DWORD windows;
        int c;
    } all[] = {
        {ERROR_FILE_NOT_FOUND, ENOENT},
        {ERROR_PATH_NOT_FOUND, ENOENT},
        {ERROR_INVALID_NAME, ENOENT},
        {ERROR_BAD_NETPATH, ENOENT},
        {ERROR_ACCESS_DENIED, EACCES},
        {ERROR_SHARING_VIOLATION, EACCES},
        {ERROR_LOCK_VIOLATION, EACCES},
        {ERROR_WRITE_PROTECT, EROFS},
        {ERROR_FILE_EXISTS, EEXIST},
        {ERROR_ALREADY_EXISTS, EEXIST},
        {ERROR_DISK_FULL, ENOSPC},
        {ERROR_HANDLE_DISK_FULL, ENOSPC},
        {ERROR_NOT_ENOUGH_MEMORY, ENOMEM},
        {ERROR_BROKEN_PIPE, EPIPE},
        {ERROR_NO_DATA, EPIPE},
        {ERROR_DIRECTORY, ENOTDIR},
        {ERROR_FILENAME_EXCED_RANGE, ENAMETOOLONG},
    };
    DWORD last = GetLastError();
    errno = EIO;
    for (size_t at = 0; at < sizeof all / sizeof *all; at++)
        if (all[at].windows == last)
            errno = all[at].c;
}
