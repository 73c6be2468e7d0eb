/* SPDX-License-Identifier: MIT OR Apache-2.0 */
/* Creates the file of an upload. The bytes are written to a new file in the folder of OUT, which is renamed to OUT after they are on the
 * disk, so OUT is either the old file or the complete new one. Without --force OUT is never replaced. With --force only a regular file that
 * the user may write is replaced, and no link. The rename uses MoveFileExW, because ReplaceFileW, which keeps more of the old file's
 * attributes, can leave neither file. */
#include "../files.h"
#include "../messages.h"
#include "utf16.h"

#include <errno.h>
#include <stdlib.h>
#include <string.h>
#include <wchar.h>
#include <windows.h>

#define SHARED (FILE_SHARE_READ | FILE_SHARE_WRITE | FILE_SHARE_DELETE)
#define MAX_BESIDE 100 /* number of names to try */
#define MAX_WRITE 1048576

static bool fail(const char *name, const char *why)
{
    return say_failed(name, " can't be made", why);
}

static bool fail_by_windows(const char *name)
{
    errno_from_windows();
    return fail(name, strerror(errno));
}

/* Returns true if the handle is a file on a disk, and not a folder, a link, or a device such as NUL. */
static bool is_regular(HANDLE file)
{
    static const DWORD others = FILE_ATTRIBUTE_DIRECTORY | FILE_ATTRIBUTE_REPARSE_POINT | FILE_ATTRIBUTE_DEVICE;
    BY_HANDLE_FILE_INFORMATION information;
    return GetFileType(file) == FILE_TYPE_DISK && GetFileInformationByHandle(file, &information)
           && (information.dwFileAttributes & others) == 0;
}

/* Returns true if the user may write the file and delete it. */
static bool may_replace(const wchar_t *wide)
{
    HANDLE file = CreateFileW(wide, GENERIC_WRITE | DELETE, SHARED, NULL, OPEN_EXISTING, FILE_FLAG_OPEN_REPARSE_POINT, NULL);
    if (file == INVALID_HANDLE_VALUE)
        return false;
    CloseHandle(file);
    return true;
}

/* Checks the name OUT. Returns 0 if it doesn't exist, 1 if it may be replaced, and -1, after printing why, if it must be kept. */
static int look(const char *name, const wchar_t *wide, bool is_forced)
{
    HANDLE file = CreateFileW(wide, 0, SHARED, NULL, OPEN_EXISTING, FILE_FLAG_OPEN_REPARSE_POINT | FILE_FLAG_BACKUP_SEMANTICS, NULL);
    DWORD error = file == INVALID_HANDLE_VALUE ? GetLastError() : ERROR_SUCCESS;
    bool is_file = file != INVALID_HANDLE_VALUE && is_regular(file);
    if (error == ERROR_FILE_NOT_FOUND || error == ERROR_PATH_NOT_FOUND)
        return 0;
    if (file != INVALID_HANDLE_VALUE)
        CloseHandle(file);
    SetLastError(error);
    if (error != ERROR_SUCCESS)
        fail_by_windows(name);
    else if (!is_forced)
        say_there(name);
    else if (!is_file)
        fail(name, "what is there is no regular file");
    else if (!may_replace(wide))
        fail_by_windows(name);
    else
        return 1;
    return -1;
}

/* Returns the length of the path of the file's folder in UTF-16 units, including the separator at its end. */
static int folder_of(const wchar_t *wide)
{
    int folder = 0;
    for (int at = 0; wide[at] != L'\0'; at++)
        if (wide[at] == L'/' || wide[at] == L'\\' || (at == 1 && wide[at] == L':'))
            folder = at + 1;
    return folder;
}

/* Opens a new file in the folder of OUT. The caller frees its name. */
static HANDLE open_beside(const wchar_t *wide, wchar_t **beside, DWORD flags)
{
    size_t room = wcslen(wide) + 32;
    HANDLE file = INVALID_HANDLE_VALUE;
    *beside = malloc(sizeof **beside * room);
    for (DWORD number = 0; *beside != NULL && number < MAX_BESIDE; number++) {
        DWORD name = (GetTickCount() * 16 + GetCurrentProcessId() + number) & 0xffffff;
        swprintf(*beside, room, L"%.*ls.dfu-flash-%06x", folder_of(wide), wide, (unsigned)name);
        file = CreateFileW(*beside, GENERIC_WRITE | DELETE, 0, NULL, CREATE_NEW, FILE_FLAG_OPEN_REPARSE_POINT | flags, NULL);
        if (file != INVALID_HANDLE_VALUE || GetLastError() != ERROR_FILE_EXISTS)
            break;
    }
    return file;
}

/* Creates a file that is deleted when it is closed, to test if files can be created in the folder. */
bool file_may_make(const char *name, bool is_forced)
{
    wchar_t *wide = utf16(name), *beside = NULL;
    bool may = false;
    if (wide == NULL)
        return fail(name, "there is no memory");
    if (look(name, wide, is_forced) >= 0) {
        HANDLE file = open_beside(wide, &beside, FILE_FLAG_DELETE_ON_CLOSE | FILE_ATTRIBUTE_TEMPORARY);
        may = file != INVALID_HANDLE_VALUE || fail_by_windows(name);
        if (may)
            CloseHandle(file);
    }
    free(beside);
    free(wide);
    return may;
}

static bool write_all(HANDLE out, const uint8_t *bytes, size_t length)
{
    while (length > 0) {
        DWORD count, most = length > MAX_WRITE ? MAX_WRITE : (DWORD)length;
        if (!WriteFile(out, bytes, most, &count, NULL) || count == 0)
            return false;
        bytes += count;
        length -= count;
    }
    return FlushFileBuffers(out) != 0;
}

/* Copies the old file's access rights as far as the user may set them. A new file inherits those of its folder. */
static void keep_rights(const wchar_t *from, const wchar_t *to)
{
    static union {
        SECURITY_DESCRIPTOR descriptor;
        BYTE bytes[65536];
    } rights;
    DWORD needed;
    if (GetFileSecurityW(from, DACL_SECURITY_INFORMATION, &rights.descriptor, sizeof rights, &needed))
        SetFileSecurityW(to, DACL_SECURITY_INFORMATION, &rights.descriptor);
}

/* Writes the new file and renames it. */
static bool replace(HANDLE out, const wchar_t *beside, const wchar_t *wide, bool is_there, const uint8_t *bytes, size_t length)
{
    bool is_written = write_all(out, bytes, length);
    DWORD error = GetLastError();
    if (!CloseHandle(out) || !is_written) {
        SetLastError(is_written ? GetLastError() : error);
        return false;
    }
    if (is_there)
        keep_rights(wide, beside);
    return MoveFileExW(beside, wide, MOVEFILE_WRITE_THROUGH | (is_there ? MOVEFILE_REPLACE_EXISTING : 0)) != 0;
}

bool file_make(const char *name, bool is_forced, const uint8_t *bytes, size_t length)
{
    wchar_t *wide = utf16(name), *beside = NULL;
    int kind = wide == NULL ? -1 : look(name, wide, is_forced);
    HANDLE out = kind < 0 ? INVALID_HANDLE_VALUE : open_beside(wide, &beside, FILE_ATTRIBUTE_NORMAL);
    bool is_made = out != INVALID_HANDLE_VALUE && replace(out, beside, wide, kind > 0, bytes, length);
    if (!is_made && kind >= 0)
        fail_by_windows(name);
    if (!is_made && out != INVALID_HANDLE_VALUE)
        DeleteFileW(beside);
    free(beside);
    free(wide);
    return is_made;
}
