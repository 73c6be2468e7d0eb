/* SPDX-License-Identifier: MIT OR Apache-2.0 */
/* CREATE_NEW never opens an existing name, and with FILE_FLAG_OPEN_REPARSE_POINT not even a dangling link. The C library has no line
 * buffering, so log.c flushes each line. */
#include "../../common/fresh.h"
#include "utf16.h"

#include <errno.h>
#include <fcntl.h>
#include <io.h>
#include <stdint.h>
#include <stdlib.h>
#include <windows.h>

static HANDLE make(const wchar_t *name)
{
    static const DWORD flags = FILE_ATTRIBUTE_NORMAL | FILE_FLAG_OPEN_REPARSE_POINT;
    HANDLE file = CreateFileW(name, GENERIC_WRITE, FILE_SHARE_READ, NULL, CREATE_NEW, flags, NULL);
    if (file != INVALID_HANDLE_VALUE || GetLastError() != ERROR_FILE_EXISTS) {
        errno_from_windows();
        return file;
    }
    file = CreateFileW(name, GENERIC_WRITE, FILE_SHARE_READ | FILE_SHARE_WRITE, NULL, OPEN_EXISTING, 0, NULL);
    if (file != INVALID_HANDLE_VALUE && GetFileType(file) != FILE_TYPE_PIPE && GetFileType(file) != FILE_TYPE_CHAR) {
        CloseHandle(file);
        file = INVALID_HANDLE_VALUE;
    }
    errno = EEXIST;
    return file;
}

FILE *fresh_open(const char *name)
{
    wchar_t *wide = utf16(name);
    HANDLE made = wide == NULL ? INVALID_HANDLE_VALUE : make(wide);
    int number = made == INVALID_HANDLE_VALUE ? -1 : _open_osfhandle((intptr_t)made, _O_WRONLY | _O_BINARY);
    FILE *file = number < 0 ? NULL : _fdopen(number, "wb");
    free(wide);
    if (file == NULL && number >= 0)
        _close(number);
    else if (number < 0 && made != INVALID_HANDLE_VALUE)
        CloseHandle(made);
    return file;
}

bool fresh_close(FILE *file)
{
    bool is_whole = ferror(file) == 0;
    return fclose(file) == 0 && is_whole;
}
