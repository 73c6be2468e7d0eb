/* SPDX-License-Identifier: MIT OR Apache-2.0 */
/* The medium: a file or a block device with two slots, each for one image. It is read through a read-only mapping, and written by calls
 * that report if the bytes are on the disk. */
#ifndef DFU_GADGET_MEDIUM_H
#define DFU_GADGET_MEDIUM_H

#include <stdbool.h>
#include <stddef.h>
#include <stdint.h>

struct medium {
    const char *name;
    int file;
    bool is_device;       /* true for a block device */
    const uint8_t *bytes; /* NULL until it is mapped */
    size_t size;          /* size of both slots together */
    size_t sector;        /* size of a sector; no sector has bytes of both slots */
    size_t head;          /* bytes of a slot before its image */
    bool is_shared;       /* opened with MEDIUM_MARK, so other programs may have it mapped */
};

/* MEDIUM_MARK is for writing a mark of a trial, even while `run` has the medium open. */
enum medium_use { MEDIUM_READ, MEDIUM_WRITE, MEDIUM_MARK };

/* Bytes of a slot before its image: gate and header, each in its own sector if images run on trial. */
enum { MEDIUM_HEAD = 32, MEDIUM_TRIAL_SECTOR = 4096, MEDIUM_TRIAL_HEAD = 2 * MEDIUM_TRIAL_SECTOR };
size_t medium_head(uint32_t tries);

/* Opens an existing medium: a regular file that isn't a link, or a block device. MEDIUM_WRITE requires that no other dfu-gadget and, for a
 * block device, no mounted file system uses it. Returns false, after printing why, if that fails. */
bool medium_open(struct medium *medium, const char *name, enum medium_use use, size_t head);

/* Opens a medium as medium_open does, and maps it. */
bool medium_map(struct medium *medium, const char *name, enum medium_use use, size_t head);
void medium_close(struct medium *medium);

/* With images on trial several programs write the medium in turns. medium_turn waits for the turn. medium_give_turn ends it, as does the
 * end of the program. medium_turn returns false, after printing why, if locking fails. */
bool medium_turn(const struct medium *medium);
void medium_give_turn(const struct medium *medium);

/* Returns the number of bytes that the two slots can use of `size`, so that no sector has bytes of both, or 0 if there are too few. */
size_t medium_slots(size_t size, size_t sector, size_t head);

/* Returns the size of a medium for images of up to `most` bytes, or 0 if they are too large for any medium. */
size_t medium_wanted(size_t most, size_t sector, size_t head);

/* Returns the largest image size of a medium with `size` bytes. */
size_t medium_most(size_t size, size_t head);

/* Writes bytes at an offset, and syncs them to the disk. Returns false, with the reason in errno, if that failed. */
bool medium_write(const struct medium *medium, size_t at, const uint8_t *bytes, size_t length);

/* Drops the bytes of a failed write from the page cache, because Linux would return them to readers although the disk doesn't have them.
 * Returns false if the bytes stay there. For a mapped medium `length` must be at most MEDIUM_MAX_WRITE. */
#define MEDIUM_MAX_WRITE 4096
bool medium_forget(const struct medium *medium, size_t at, size_t length);

#endif
