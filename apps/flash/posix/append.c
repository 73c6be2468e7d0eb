/* SPDX-License-Identifier: MIT OR Apache-2.0 */
/* With O_APPEND the system writes at the end of the file, even if several processes write. Each line is one write, so lines of different
 * processes don't mix. */
#define _POSIX_C_SOURCE 200809L
#include "../append.h"
#include "../clock.h"
#include "../messages.h"

#include <errno.h>
#include <fcntl.h>
#include <poll.h>
#include <string.h>
#include <sys/stat.h>
#include <unistd.h>

#define TAIL_ROOM 65536
#define SETTLE_MS 50   /* time in which another program completes its write */
#define LOCK_TRIES 200 /* number of tries to lock the file, one per millisecond */

void append_lock(int file, bool is_on)
{
    struct flock all = {.l_type = is_on ? F_WRLCK : F_UNLCK, .l_whence = SEEK_SET};
    int before = errno;
    for (int tries = 0; tries < LOCK_TRIES && fcntl(file, F_SETLK, &all) != 0; tries++)
        poll(NULL, 0, 1);
    errno = before;
}

/* Ends a line that a power cut has broken off, so that the next line is separate. */
static bool end_last(int file, off_t size)
{
    char last = '\n';
    return size == 0 || (pread(file, &last, 1, size - 1) == 1 && (last == '\n' || write(file, "\n", 1) == 1));
}

/* Name of the last opened file. */
static const char *opened;

/* Returns true if the name still refers to the open file. A line in a file that was removed or replaced would be lost. */
static bool is_in_place(int file)
{
    struct stat here, there;
    return opened == NULL
           || (fstat(file, &here) == 0 && lstat(opened, &there) == 0 && here.st_dev == there.st_dev && here.st_ino == there.st_ino);
}

int append_open(const char *name, char *front, size_t room, const char **why)
{
    struct stat found;
    int file = open(name, O_RDWR | O_APPEND | O_CREAT | O_NOFOLLOW | O_NOCTTY | O_NONBLOCK, 0666);
    ssize_t count = -1;
    *why = strerror(errno);
    if (file < 0)
        return -1;
    if (fstat(file, &found) == 0 && !S_ISREG(found.st_mode))
        *why = "what is there is no regular file";
    else {
        count = pread(file, front, room - 1, 0);
        *why = strerror(errno);
    }
    if (count < 0) {
        close(file);
        return -1;
    }
    front[count] = '\0';
    opened = name;
    return file;
}

/* Returns the offset of a broken last line, or the size of the file if the last line is whole. */
static off_t torn_at(int file, off_t size, bool (*is_whole)(const char *line, size_t length))
{
    static char tail[TAIL_ROOM];
    size_t room = size < TAIL_ROOM ? (size_t)size : TAIL_ROOM, at = room;
    if (pread(file, tail, room, size - (off_t)room) != (ssize_t)room)
        return size;
    while (at > 0 && tail[at - 1] != '\n')
        at--;
    return (at == 0 && size > TAIL_ROOM) || is_whole(tail + at, room - at) ? size : size - (off_t)(room - at);
}

/* Another program may be writing the last line, so it is removed only if the size of the file doesn't change for a moment. */
void append_mend(int file, const char *name, bool (*is_whole)(const char *line, size_t length))
{
    struct stat found, now;
    off_t whole = fstat(file, &found) == 0 ? torn_at(file, found.st_size, is_whole) : 0;
    if (whole >= found.st_size || !clock_wait(SETTLE_MS) || fstat(file, &now) != 0 || now.st_size != found.st_size)
        return;
    if (ftruncate(file, whole) == 0)
        say_text(stderr, "dfu-flash: ", name, ": its last line was broken off, and is taken away\n");
}

bool append_has_moved(void)
{
    return errno == ESTALE;
}

const char *append_why(void)
{
    return append_has_moved() ? "it was removed or replaced while the program ran"
           : errno == 0       ? "there is no room for the whole line"
                              : strerror(errno);
}

/* Removes the part of a line that was written before the disk was full, unless another program has appended to it since. */
static void take_back(int file, off_t size, ssize_t count)
{
    struct stat now;
    int error = errno;
    bool is_ours = count > 0 && fstat(file, &now) == 0 && now.st_size == size + count;
    if (is_ours && ftruncate(file, size) != 0)
        is_ours = false; /* the next append ends the partial line */
    errno = error;
}

/* Ends the last line if it is broken, and appends a line. Returns true if all of it was written. */
static bool add_line(int file, const char *line, size_t length)
{
    struct stat found;
    ssize_t count;
    if (fstat(file, &found) != 0 || !end_last(file, found.st_size) || fstat(file, &found) != 0)
        return false;
    count = write(file, line, length);
    if (count == (ssize_t)length)
        return true;
    take_back(file, found.st_size, count);
    return false;
}

/* Returns true only after the line is on the disk, so that a power cut can't remove the line of a board that was reported. */
bool append_line(int file, const char *line, size_t length)
{
    bool is_added;
    if (!is_in_place(file)) {
        errno = ESTALE;
        return false;
    }
    append_lock(file, true);
    is_added = add_line(file, line, length);
    append_lock(file, false);
    return is_added && fsync(file) == 0;
}
