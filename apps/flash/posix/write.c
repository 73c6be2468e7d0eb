/* SPDX-License-Identifier: MIT OR Apache-2.0 */
/* Creates the file of an upload. The bytes are written to a new file in the folder of OUT, which is renamed to OUT after they are on the
 * disk, so OUT is either the old file or the complete new one. Without --force OUT is never replaced. With --force only a regular file that
 * the user may write is replaced, and no link is followed, because replacing a device, or the target of another user's link, does harm. */
#define _POSIX_C_SOURCE 200809L
#include "../files.h"
#include "../messages.h"
#include "own.h"

#include <errno.h>
#include <fcntl.h>
#include <stdio.h>
#include <stdlib.h>
#include <string.h>
#include <sys/stat.h>
#include <unistd.h>

static bool fail(const char *name, const char *why)
{
    return say_failed(name, " can't be made", why);
}

/* Checks the name OUT. Returns 0 if it doesn't exist, 1 if it may be replaced, and -1, after printing why, if it must be kept. */
static int look(const char *name, bool is_forced, struct stat *there)
{
    bool is_there = lstat(name, there) == 0;
    if (!is_there && errno == ENOENT)
        return 0;
    if (!is_there)
        fail(name, strerror(errno));
    else if (!is_forced)
        say_there(name);
    else if (!S_ISREG(there->st_mode))
        fail(name, "what is there is no regular file");
    else if (faccessat(AT_FDCWD, name, W_OK, AT_EACCESS) != 0)
        fail(name, strerror(errno));
    else
        return 1;
    return -1;
}

/* Returns the template for the new file's name: a hidden file in the folder of OUT. The caller frees it. */
static char *name_beside(const char *name)
{
    const char *slash = strrchr(name, '/');
    int folder = slash == NULL ? 0 : (int)(slash - name) + 1;
    char *beside = malloc((size_t)folder + 32);
    if (beside != NULL)
        sprintf(beside, "%.*s.dfu-flash-XXXXXX", folder, name);
    return beside;
}

bool file_may_make(const char *name, bool is_forced)
{
    struct stat there;
    const char *slash = strrchr(name, '/');
    char *folder = slash == NULL ? strdup(".") : strndup(name, (size_t)(slash - name) + 1);
    bool may = false;
    if (folder == NULL)
        return fail(name, "there is no memory");
    if (look(name, is_forced, &there) >= 0)
        may = faccessat(AT_FDCWD, folder, W_OK | X_OK, AT_EACCESS) == 0 || fail(name, strerror(errno));
    free(folder);
    return may;
}

static bool write_all(int out, const uint8_t *bytes, size_t length)
{
    while (length > 0) {
        ssize_t count = write(out, bytes, length);
        if (count < 0 && errno == EINTR)
            continue;
        if (count <= 0)
            return false;
        bytes += count;
        length -= (size_t)count;
    }
    return fsync(out) == 0;
}

/* Copies the owner and the permissions of the old file. If its owner and group can't be kept, the group's permissions become those of all
 * others. A new file gets the user's default permissions. */
static bool set_rights(int out, const struct stat *there)
{
    mode_t mask, mode;
    if (there == NULL) {
        mask = umask(0);
        umask(mask);
        return fchmod(out, 0666 & ~mask) == 0;
    }
    mode = there->st_mode & 0777;
    if (fchown(out, there->st_uid, there->st_gid) != 0 && fchown(out, (uid_t)-1, there->st_gid) != 0)
        mode = (mode & 0707) | (mode & 07) << 3;
    return fchmod(out, mode) == 0;
}

/* For a file system without an exclusive rename and without links: creates an empty file with the name, and replaces it. */
static bool take_name(const char *beside, const char *name)
{
    int error, empty = open(name, O_WRONLY | O_CREAT | O_EXCL | O_NOFOLLOW | O_CLOEXEC, 0600);
    if (empty < 0)
        return false;
    close(empty);
    if (rename(beside, name) == 0)
        return true;
    error = errno;
    unlink(name);
    errno = error;
    return false;
}

/* Renames the new file without replacing a file that was created in the meantime. */
static bool give_name(const char *beside, const char *name, bool is_there)
{
    if (is_there)
        return rename(beside, name) == 0;
    if (own_rename(beside, name) == 0)
        return true;
    if (errno != EINVAL && errno != ENOSYS)
        return false;
    if (link(beside, name) == 0)
        return unlink(beside) == 0;
    return errno != EEXIST && take_name(beside, name);
}

bool file_make(const char *name, bool is_forced, const uint8_t *bytes, size_t length)
{
    struct stat there;
    int kind = look(name, is_forced, &there);
    char *beside = kind < 0 ? NULL : name_beside(name);
    int out = beside == NULL ? -1 : mkstemp(beside);
    bool is_made = out >= 0 && set_rights(out, kind > 0 ? &there : NULL) && write_all(out, bytes, length);
    if (out >= 0 && close(out) != 0)
        is_made = false;
    is_made = is_made && give_name(beside, name, kind > 0);
    if (!is_made && kind >= 0)
        fail(name, strerror(errno));
    if (!is_made && out >= 0)
        unlink(beside);
    free(beside);
    return is_made;
}
