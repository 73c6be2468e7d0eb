/* SPDX-License-Identifier: MIT OR Apache-2.0 */
/* Creates a medium. A new file gets its name after it is complete and on the disk. An existing medium is overwritten only if it is blank,
 * or with --force, and never while it is in use or through a link to a file. */
#define _GNU_SOURCE
#include "medium_file.h"
#include "machine.h"
#include "messages.h"

#include <errno.h>
#include <fcntl.h>
#include <stdio.h>
#include <stdlib.h>
#include <string.h>
#include <sys/stat.h>
#include <unistd.h>

#define NEW_SECTOR 4096 /* sector size for a new file */
#define PIECE 65536

/* Reads up to `most` + 1 bytes of a file. Returns NULL, after printing why, if that failed. */
static uint8_t *read_image(const char *name, size_t most, size_t *length)
{
    FILE *file = fopen(name, "rbe");
    uint8_t *bytes = file == NULL ? NULL : malloc(most + 1);
    bool is_read = bytes != NULL;
    if (is_read) {
        *length = fread(bytes, 1, most + 1, file);
        is_read = !ferror(file);
    }
    if (!is_read) {
        say_failed(name, "can't be read");
        free(bytes);
    }
    if (file != NULL)
        fclose(file);
    return is_read ? bytes : NULL;
}

/* Builds the content of a new medium in memory. Returns NULL, after printing why, with the exit status in `status`, if that failed. */
static uint8_t *make_content(const struct words *words, size_t size, int *status)
{
    size_t length = 0;
    uint8_t *image = read_image(words->image, words->most, &length), *content = NULL;
    int32_t refusal;
    *status = STATUS_FILE;
    if (image == NULL)
        return NULL;
    content = calloc(1, size);
    refusal = content == NULL ? 0 : length > words->most ? DFU_TOO_LARGE : machine_format(content, size, image, length, words->tries);
    free(image);
    if (content == NULL)
        say_failed(words->image, "finds no memory");
    else if (refusal == 0)
        return content;
    else {
        say_wrong(words->image, machine_words(refusal));
        *status = STATUS_REFUSED;
    }
    free(content);
    return NULL;
}

/* Returns true if the bytes that would be overwritten are all 00h, or all FFh as in erased flash. */
static bool is_blank(const struct medium *medium, size_t size)
{
    static uint8_t piece[PIECE];
    uint8_t first = 0;
    for (size_t at = 0; at < size;) {
        ssize_t count = pread(medium->file, piece, size - at < PIECE ? size - at : PIECE, (off_t)at);
        if (count <= 0)
            return count == 0;
        first = at == 0 ? piece[0] : first;
        for (ssize_t byte = 0; byte < count; byte++)
            if (piece[byte] != first || (first != 0 && first != 0xff))
                return false;
        at += (size_t)count;
    }
    return true;
}

static int overwrite(const struct words *words)
{
    struct medium medium;
    uint8_t *content;
    size_t size;
    bool is_done;
    int status = STATUS_REFUSED;
    if (!medium_open(&medium, words->medium, MEDIUM_WRITE, medium_head(words->tries)))
        return STATUS_REFUSED;
    size = medium.is_device ? medium.size : medium_wanted(words->most, medium.sector, medium.head);
    if (!medium_turn(&medium))
        status = STATUS_FILE;
    else if (size == 0 || words->most > medium_most(size, medium.head))
        say_wrong(words->medium, "it has no room for two images of --most bytes");
    else if (!words->force && !is_blank(&medium, medium.is_device ? size : (size_t)lseek(medium.file, 0, SEEK_END)))
        say_wrong(words->medium, "there is something already: --force overwrites it");
    else if ((content = make_content(words, size, &status)) != NULL) {
        is_done = (medium.is_device || ftruncate(medium.file, (off_t)size) == 0) && medium_write(&medium, 0, content, size)
                  && fsync(medium.file) == 0;
        status = is_done ? STATUS_DONE : STATUS_FILE;
        if (!is_done) {
            say_failed(words->medium, "can't be written");
            medium_forget(&medium, 0, size);
        }
        free(content);
    }
    medium_close(&medium);
    return status;
}

static char *name_beside(const char *name)
{
    const char *slash = strrchr(name, '/');
    int folder = slash == NULL ? 0 : (int)(slash - name) + 1;
    char *beside = NULL;
    return asprintf(&beside, "%.*s.dfu-gadget-XXXXXX", folder, name) < 0 ? NULL : beside;
}

/* A file that was created under the name in the meantime isn't replaced. */
static bool give_name(const char *beside, const char *name)
{
    if (renameat2(AT_FDCWD, beside, AT_FDCWD, name, RENAME_NOREPLACE) == 0)
        return true;
    if (errno != EINVAL && errno != ENOSYS)
        return false;
    return link(beside, name) == 0 && unlink(beside) == 0;
}

/* Syncs the folder, so that the directory entry of the file is on the disk. */
static bool sync_folder(const char *name)
{
    const char *slash = strrchr(name, '/');
    char *folder = slash == NULL ? strdup(".") : strndup(name, (size_t)(slash - name) + 1);
    int file = folder == NULL ? -1 : open(folder, O_RDONLY | O_DIRECTORY | O_CLOEXEC);
    bool is_done = file >= 0 && (fsync(file) == 0 || errno == EINVAL);
    if (file >= 0)
        close(file);
    free(folder);
    return is_done;
}

static int make_new(const struct words *words)
{
    size_t size = medium_wanted(words->most, NEW_SECTOR, medium_head(words->tries));
    int status = STATUS_REFUSED;
    uint8_t *content = size == 0 ? NULL : make_content(words, size, &status);
    char *beside = content == NULL ? NULL : name_beside(words->medium);
    struct medium medium = {.name = words->medium, .file = beside == NULL ? -1 : mkostemp(beside, O_CLOEXEC)};
    bool is_done = medium.file >= 0 && medium_write(&medium, 0, content, size) && fsync(medium.file) == 0
                   && give_name(beside, words->medium) && sync_folder(words->medium);
    if (size == 0)
        say_wrong(words->medium, "--most is at most 16777184, so that no sector has bytes of both slots");
    else if (content != NULL && !is_done)
        say_failed(words->medium, "can't be made");
    if (!is_done && medium.file >= 0)
        unlink(beside);
    if (medium.file >= 0)
        close(medium.file);
    free(beside);
    free(content);
    return is_done ? STATUS_DONE : content == NULL ? status : STATUS_FILE;
}

int make_medium(const struct words *words)
{
    struct stat found;
    if (lstat(words->medium, &found) == 0)
        return overwrite(words);
    if (errno == ENOENT)
        return make_new(words);
    say_failed(words->medium, "can't be looked at");
    return STATUS_REFUSED;
}

static int print_image(const struct medium *medium, const struct dfu_place *place)
{
    if (fwrite(medium->bytes + place->at, 1, place->length, stdout) == place->length && fflush(stdout) == 0)
        return STATUS_DONE;
    say_failed("standard output", "failed");
    return STATUS_FILE;
}

/* A medium has an image in only one of the two layouts, with or without trials, because one layout's header is invalid in the other. */
int write_image(const struct words *words)
{
    static const size_t heads[] = {MEDIUM_HEAD, MEDIUM_TRIAL_HEAD};
    struct medium medium;
    struct dfu_place place;
    int32_t refusal = DFU_NO_MEDIUM;
    int status = STATUS_REFUSED;
    for (size_t at = 0; at < 2 && refusal != 0; at++) {
        if (!medium_map(&medium, words->medium, MEDIUM_READ, heads[at]))
            return STATUS_REFUSED;
        refusal = machine_image(&medium, &place);
        if (refusal == 0)
            status = print_image(&medium, &place);
        medium_close(&medium);
    }
    if (refusal != 0)
        say_wrong(words->medium, machine_words(DFU_NO_MEDIUM));
    return status;
}
