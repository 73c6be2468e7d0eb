/* SPDX-License-Identifier: MIT OR Apache-2.0 */
/* The lock on LIST.used belongs to the open file. Forked processes share the lock, and it is released when the last of them has ended in
 * any way. */
#define _DEFAULT_SOURCE
#include "../used.h"
#include "../advice.h"
#include "../append.h"

#include <errno.h>
#include <fcntl.h>
#include <stdio.h>
#include <stdlib.h>
#include <string.h>
#include <sys/file.h>
#include <sys/stat.h>
#include <unistd.h>

#define ENDING ".used"

static int used = -1;
static char *used_name;

/* Returns the name of LIST.used, the record beside the list, with symbolic links resolved. The caller frees it. */
static char *name_of(const char *list)
{
    char *real = realpath(list, NULL), *name = real == NULL ? NULL : malloc(strlen(real) + sizeof ENDING);
    if (name != NULL)
        sprintf(name, "%s" ENDING, real);
    free(real);
    return name;
}

/* Syncs the folder, because a new file survives a power cut only if its directory entry is on the disk. */
static bool keep_name(char *name)
{
    int folder;
    bool is_kept;
    *(strrchr(name, '/') + 1) = '\0';
    folder = open(name, O_RDONLY | O_CLOEXEC);
    is_kept = folder >= 0 && fsync(folder) == 0;
    if (folder >= 0)
        close(folder);
    return is_kept;
}

static bool read_all(int file, char **text, const char **why)
{
    struct stat found;
    ssize_t count;
    if (fstat(file, &found) != 0 || !S_ISREG(found.st_mode)) {
        *why = "what is there is no regular file";
        return false;
    }
    *text = malloc((size_t)found.st_size + 1);
    count = *text == NULL ? -1 : pread(file, *text, (size_t)found.st_size, 0);
    *why = strerror(errno);
    if (count != found.st_size)
        return false;
    (*text)[count] = '\0';
    *why = "there is a NUL in it";
    return strlen(*text) == (size_t)count;
}

/* Removes a broken last line. Its board wasn't flashed, because a session begins only after its line is on the disk. A line that lacks only
 * its newline is kept, and end_torn adds it. */
static bool drop_torn(int file, char *text, bool only_looks, const char **why)
{
    size_t whole = used_whole(text);
    bool is_torn = text[whole] != '\0';
    text[whole] = '\0';
    if (!is_torn || only_looks || ftruncate(file, (off_t)whole) == 0)
        return true;
    *why = strerror(errno);
    return false;
}

/* Returns true if the name still refers to the open file. An editor, for example, replaces the file by a new one. */
static bool is_in_place(int file, const char *name)
{
    struct stat here, there;
    return fstat(file, &here) == 0 && lstat(name, &there) == 0 && here.st_dev == there.st_dev && here.st_ino == there.st_ino;
}

static bool take(int file, const char *name, const char **why)
{
    if (flock(file, LOCK_EX | LOCK_NB) != 0) {
        *why = errno == EWOULDBLOCK ? "another dfu-flash is at work with it" : strerror(errno);
        if (errno == EWOULDBLOCK)
            advice_is("give each station a list of its own, or run it again once the other one has ended");
    } else if (!is_in_place(file, name))
        *why = "it was replaced just now: run it again";
    else
        return true;
    return false;
}

/* Returns true if the list has no other hard link, because each name would have a record of its own. */
static bool has_one_name(const char *list, const char **why)
{
    struct stat found;
    *why = "its list has another name by a hard link, which would have a record of its own: copy the list";
    return stat(list, &found) != 0 || found.st_nlink == 1;
}

bool used_open(const char *list, bool only_looks, char **text, const char **why)
{
    char *name = name_of(list);
    int flags = (only_looks ? O_RDONLY : O_RDWR | O_APPEND | O_CREAT) | O_NOFOLLOW | O_NOCTTY | O_NONBLOCK;
    int file = name == NULL ? -1 : open(name, flags, 0666);
    bool is_open;
    *text = NULL;
    *why = strerror(errno);
    if (file >= 0 && !has_one_name(list, why)) {
        close(file);
        free(name);
        return false;
    }
    if (file < 0 && name != NULL && only_looks && errno == ENOENT) {
        free(name);
        *text = calloc(1, 1);
        return *text != NULL;
    }
    is_open = file >= 0 && (only_looks || take(file, name, why)) && read_all(file, text, why) && drop_torn(file, *text, only_looks, why);
    used_name = is_open && !only_looks ? strdup(name) : NULL;
    if (is_open && !only_looks && (used_name == NULL || !keep_name(name))) {
        *why = strerror(errno);
        is_open = false;
    }
    free(name);
    if (file >= 0 && (only_looks || !is_open))
        close(file);
    else
        used = file;
    return is_open;
}

/* Ends a broken last line, so that the next line is separate. A partial line may remain after the disk was full, because another process
 * may have appended to it. No board was flashed for such a line: used_open removes it at the end of the file, and refuses it elsewhere. */
static bool end_torn(void)
{
    struct stat found;
    char last = '\n';
    return fstat(used, &found) == 0
           && (found.st_size == 0 || (pread(used, &last, 1, found.st_size - 1) == 1 && (last == '\n' || write(used, "\n", 1) == 1)));
}

bool used_add(const char *line, size_t length)
{
    bool is_added;
    if (used < 0 || !is_in_place(used, used_name))
        return false;
    append_lock(used, true);
    is_added = end_torn() && write(used, line, length) == (ssize_t)length;
    append_lock(used, false);
    return is_added && fsync(used) == 0;
}

bool used_is_there(void)
{
    return used >= 0 && is_in_place(used, used_name);
}
