/* SPDX-License-Identifier: MIT OR Apache-2.0 */
/* Opens, maps, locks and writes a medium, and computes its size. */
#define _GNU_SOURCE
#include "medium.h"
#include "messages.h"

#include <errno.h>
#include <fcntl.h>
#include <linux/fs.h>
#include <sys/file.h>
#include <sys/ioctl.h>
#include <sys/mman.h>
#include <sys/stat.h>
#include <unistd.h>

#define SECTOR 4096              /* largest sector of common disks and cards, in bytes */
#define MAX_IMAGE_BYTES 16777216 /* largest image that the library accepts, in bytes */

/* The size of a slot is a multiple of the sector size, also if the library's limit applies. */
size_t medium_slots(size_t size, size_t sector, size_t head)
{
    size_t slot = size / 2 / sector * sector, largest = (head + MAX_IMAGE_BYTES) / sector * sector;
    return 2 * (slot < largest ? slot : largest);
}

size_t medium_wanted(size_t most, size_t sector, size_t head)
{
    size_t slot = most > MAX_IMAGE_BYTES ? 0 : (head + most + sector - 1) / sector * sector;
    return slot == 0 || slot > head + MAX_IMAGE_BYTES ? 0 : 2 * slot;
}

size_t medium_most(size_t size, size_t head)
{
    return size / 2 < head ? 0 : size / 2 - head;
}

size_t medium_head(uint32_t tries)
{
    return tries == 0 ? MEDIUM_HEAD : MEDIUM_TRIAL_HEAD;
}

/* A link is followed only to a block device, such as those in /dev/disk, because a link to a file may be another user's. O_NONBLOCK opens a
 * pipe without waiting, and it is refused later. For a block device O_EXCL requires that nothing else uses it, such as a file system. */
static int open_there(const char *name, int flags)
{
    int file = open(name, flags | O_CLOEXEC | O_NOFOLLOW | O_NONBLOCK);
    struct stat found;
    if (file >= 0 || errno != ELOOP)
        return file;
    file = open(name, flags | O_CLOEXEC | O_NONBLOCK);
    if (file >= 0 && (fstat(file, &found) != 0 || !S_ISBLK(found.st_mode))) {
        close(file);
        errno = ELOOP;
        return -1;
    }
    return file;
}

static bool take_size(struct medium *medium, const struct stat *found)
{
    unsigned physical = 0;
    off_t end = lseek(medium->file, 0, SEEK_END);
    medium->is_device = S_ISBLK(found->st_mode);
    medium->sector = SECTOR;
    if (medium->is_device && ioctl(medium->file, BLKPBSZGET, &physical) == 0 && physical > SECTOR && physical <= 65536)
        medium->sector = physical;
    if (end < 0)
        return say_failed(medium->name, "has no size");
    medium->size = medium_slots((size_t)end, medium->sector, medium->head);
    return true;
}

static bool take_alone(const struct medium *medium, enum medium_use use)
{
    return use != MEDIUM_WRITE || flock(medium->file, LOCK_EX | LOCK_NB) == 0
           || say_failed(medium->name, "is in use by another dfu-gadget");
}

/* Returns true if another user may write the file. Such a user can also truncate it, which ends a program that has it mapped. */
static bool is_shared(const struct stat *found)
{
    return S_ISREG(found->st_mode) && ((found->st_mode & 022) != 0 || (found->st_uid != geteuid() && found->st_uid != 0));
}

static bool look(struct medium *medium, enum medium_use use)
{
    struct stat found;
    if (fstat(medium->file, &found) != 0)
        return say_failed(medium->name, "can't be looked at");
    if (!S_ISREG(found.st_mode) && !S_ISBLK(found.st_mode))
        return say_wrong(medium->name, "it is neither a regular file nor a block device");
    if (use != MEDIUM_READ && is_shared(&found))
        say_wrong(medium->name, "warning: other users may write it");
    return take_size(medium, &found) && take_alone(medium, use);
}

bool medium_open(struct medium *medium, const char *name, enum medium_use use, size_t head)
{
    static const int flags[] = {[MEDIUM_READ] = O_RDONLY, [MEDIUM_WRITE] = O_RDWR | O_EXCL, [MEDIUM_MARK] = O_RDWR};
    *medium = (struct medium){.name = name, .file = open_there(name, flags[use]), .head = head, .is_shared = use == MEDIUM_MARK};
    if (medium->file < 0 && errno == EBUSY)
        return say_wrong(name, "it is in use, by a file system that is mounted or by another program");
    if (medium->file < 0)
        return errno == ELOOP ? say_wrong(name, "it is a link, and not to a block device") : say_failed(name, "can't be opened");
    if (look(medium, use))
        return true;
    medium_close(medium);
    return false;
}

bool medium_map(struct medium *medium, const char *name, enum medium_use use, size_t head)
{
    void *bytes;
    if (!medium_open(medium, name, use, head))
        return false;
    if (medium->size == 0) {
        medium_close(medium);
        return say_wrong(name, "it is too small for a medium: `dfu-gadget format` makes one");
    }
    if (use == MEDIUM_WRITE) /* drops the bytes of a failed write, after which an earlier program ended without dropping them */
        medium_forget(medium, 0, 0);
    bytes = mmap(NULL, medium->size, PROT_READ, MAP_SHARED, medium->file, 0);
    if (bytes == MAP_FAILED) {
        say_failed(name, "can't be mapped");
        medium_close(medium);
        return false;
    }
    medium->bytes = bytes;
    return true;
}

void medium_close(struct medium *medium)
{
    if (medium->bytes != NULL)
        munmap((void *)(uintptr_t)medium->bytes, medium->size);
    medium->bytes = NULL;
    if (medium->file >= 0)
        close(medium->file);
    medium->file = -1;
}

/* Locks or unlocks the medium for a turn, by an open-file lock. This lock is separate from the flock that `run` holds all the time. */
static bool set_turn(const struct medium *medium, short kind)
{
    struct flock lock = {.l_type = kind, .l_whence = SEEK_SET, .l_start = 0, .l_len = 1};
    int taken;
    while ((taken = fcntl(medium->file, F_OFD_SETLKW, &lock)) != 0 && errno == EINTR)
        continue;
    return taken == 0;
}

bool medium_turn(const struct medium *medium)
{
    return set_turn(medium, F_WRLCK) || say_failed(medium->name, "can't be locked");
}

void medium_give_turn(const struct medium *medium)
{
    (void)set_turn(medium, F_UNLCK);
}

bool medium_write(const struct medium *medium, size_t at, const uint8_t *bytes, size_t length)
{
    while (length > 0) {
        ssize_t count = pwrite(medium->file, bytes, length, (off_t)at);
        if (count < 0 && errno == EINTR)
            continue;
        if (count == 0)
            errno = ENOSPC;
        if (count <= 0)
            return false;
        bytes += count;
        at += (size_t)count;
        length -= (size_t)count;
    }
    return fdatasync(medium->file) == 0;
}

/* Returns true if the kernel still has a page of these bytes in memory. */
static bool is_kept(const struct medium *medium, size_t at, size_t length)
{
    size_t page = (size_t)sysconf(_SC_PAGESIZE), from = at / page * page;
    unsigned char kept[MEDIUM_MAX_WRITE / 4096 + 2] = {0};
    bool has_page = mincore((void *)(uintptr_t)(medium->bytes + from), at + length - from, kept) != 0;
    for (size_t each = 0; each < sizeof kept; each++)
        has_page = has_page || (kept[each] & 1) != 0;
    return has_page;
}

/* Linux doesn't drop mapped pages, so the mapping is replaced by an empty one until its pages are dropped. */
bool medium_forget(const struct medium *medium, size_t at, size_t length)
{
    void *bytes = (void *)(uintptr_t)medium->bytes;
    if (bytes == NULL)
        return posix_fadvise(medium->file, 0, 0, POSIX_FADV_DONTNEED) == 0;
    return mmap(bytes, medium->size, PROT_NONE, MAP_PRIVATE | MAP_ANONYMOUS | MAP_FIXED, -1, 0) == bytes
           && posix_fadvise(medium->file, 0, 0, POSIX_FADV_DONTNEED) == 0
           && mmap(bytes, medium->size, PROT_READ, MAP_SHARED | MAP_FIXED, medium->file, 0) == bytes && !is_kept(medium, at, length);
}
