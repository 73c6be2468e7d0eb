/* Tries losses of power at each write of a medium: cuts START LOG END IMAGE..
 *
 * START is the medium at the beginning, LOG a log of the kernel's dm-log-writes, and END the medium at the end. A mark in the log is the
 * last part of an IMAGE's path, and precedes the download of that image; before the first mark the first IMAGE is active. At each write the
 * program tries all states in which only its first sectors, or one single sector, were written, and any of the earlier unflushed writes
 * were lost. In each state the active image must be the one before the download or the downloaded one. At a mark it must be the image of
 * the download that ended there. */
#define _GNU_SOURCE
#include "dfu_core.h"

#include <endian.h>
#include <errno.h>
#include <stdbool.h>
#include <stdint.h>
#include <stdio.h>
#include <stdlib.h>
#include <string.h>

#define MAGIC 0x6a736677736872
#define SECTOR 512
enum { FLUSH = 1, FUA = 2, DISCARD = 4, MARK = 8 };
enum { MOST_PENDING = 6 }; /* maximum number of writes without a flush after them */

struct file {
    const char *name;
    uint8_t *bytes;
    size_t size;
};
struct write {
    size_t at, length;
    const uint8_t *bytes;
};

/* Layout of dfu-gadget's medium. Only these fields of the configuration matter; the medium is written byte by byte. */
static const struct dfu_config layout = {.version = DFU_VERSION, .transfer = 1, .attributes = 4, .least = 1, .unit = 1};
static struct file disk, *images;
static uint8_t *trial;
static int many, now; /* number of images; number of the current download's image, 0 before the first */
static struct write pending[MOST_PENDING];
static int unflushed;
static unsigned writes, flushes, states, of_before, of_new, of_neither;

static void fail(const char *name, const char *why)
{
    fprintf(stderr, "cuts: %s: %s\n", name, why);
    exit(2);
}

static struct file get(const char *name)
{
    struct file is = {.name = name};
    FILE *file = fopen(name, "rb");
    long size = -1;
    if (file == NULL || fseek(file, 0, SEEK_END) != 0 || (size = ftell(file)) < 0)
        fail(name, strerror(errno));
    rewind(file);
    is.size = (size_t)size;
    is.bytes = malloc(is.size + 1);
    if (is.bytes == NULL || fread(is.bytes, 1, is.size, file) != is.size)
        fail(name, "can't be read");
    fclose(file);
    return is;
}

static bool is_active(const uint8_t *bytes, const struct dfu_place *place, int image)
{
    return images[image].size == place->length && memcmp(bytes + place->at, images[image].bytes, place->length) == 0;
}

/* Checks one state of the medium. */
static void look(const uint8_t *bytes)
{
    struct dfu_place place;
    bool is_image = dfu_core_image(&layout, bytes, disk.size, &place) == 0;
    states++;
    if (is_image && is_active(bytes, &place, now > 0 ? now - 1 : 0))
        of_before++;
    else if (is_image && is_active(bytes, &place, now))
        of_new++;
    else {
        of_neither++;
        printf("write %u leaves %s\n", writes, is_image ? "another image" : "no image");
    }
}

static void put(uint8_t *bytes, const struct write *write, size_t from, size_t to)
{
    memcpy(bytes + write->at + from * SECTOR, write->bytes + from * SECTOR, (to - from) * SECTOR);
}

/* Tries all subsets of the writes that were not flushed, with this write broken off. */
static void cut(const struct write *write)
{
    size_t sectors = write->length / SECTOR;
    for (unsigned kept = 0; kept < 1u << unflushed; kept++)
        for (size_t from = 0; from < sectors; from++)
            for (size_t to = from; to <= sectors; to++) {
                if (from > 0 && to != from + 1)
                    continue;
                memcpy(trial, disk.bytes, disk.size);
                for (int at = 0; at < unflushed; at++)
                    if ((kept >> at & 1) != 0)
                        put(trial, &pending[at], 0, pending[at].length / SECTOR);
                put(trial, write, from, to);
                look(trial);
            }
}

static void flush(void)
{
    for (int at = 0; at < unflushed; at++)
        put(disk.bytes, &pending[at], 0, pending[at].length / SECTOR);
    unflushed = 0;
    look(disk.bytes);
}

static const char *last_part(const char *name)
{
    const char *slash = strrchr(name, '/');
    return slash == NULL ? name : slash + 1;
}

/* Handles a mark: flushes all writes, after which the image of the download that ended here must be active. */
static void mark(const char *text)
{
    unsigned before = of_before;
    flush();
    if (of_before == before + 1 && now > 0)
        fail(text, "the download before it brought no image");
    if (now + 1 < many && strcmp(text, last_part(images[now + 1].name)) == 0)
        now++;
    else if (strcmp(text, "end") != 0)
        fail(text, "is a mark of no image");
}

static void take(const struct write *write, uint64_t flags)
{
    if ((flags & DISCARD) != 0 || write->at > disk.size || write->length > disk.size - write->at)
        fail("the log", "has a write of another kind, or outside");
    if (unflushed == MOST_PENDING)
        fail("the log", "has too many writes with no flush between");
    writes++;
    cut(write);
    pending[unflushed++] = *write;
    if ((flags & FUA) != 0)
        flush();
}

/* Applies an entry of the log. Returns its number of bytes. */
static size_t take_entry(const struct file *log, size_t at)
{
    uint64_t fields[4];
    char text[64] = "";
    if (log->size - at < SECTOR)
        fail(log->name, "is cut short");
    memcpy(fields, log->bytes + at, sizeof fields);
    struct write write = {(size_t)le64toh(fields[0]) * SECTOR, (size_t)le64toh(fields[1]) * SECTOR, log->bytes + at + SECTOR};
    uint64_t flags = le64toh(fields[2]), length = le64toh(fields[3]);
    if ((flags & MARK) != 0) {
        memcpy(text, log->bytes + at + sizeof fields, length < 63 ? (size_t)length : 63);
        if (strcmp(text, "dm-log-writes-end") != 0)
            mark(text);
        return SECTOR;
    }
    if ((flags & FLUSH) != 0) {
        flushes++;
        flush();
    }
    if (write.length > log->size - at - SECTOR)
        fail(log->name, "is cut short");
    if (write.length > 0)
        take(&write, flags);
    return SECTOR + write.length;
}

static void take_log(const struct file *log)
{
    uint64_t entries, magic;
    uint32_t sector;
    size_t at = SECTOR;
    if (log->size < SECTOR)
        fail(log->name, "is cut short");
    memcpy(&magic, log->bytes, 8);
    memcpy(&entries, log->bytes + 16, 8);
    memcpy(&sector, log->bytes + 24, 4);
    if (le64toh(magic) != MAGIC || le32toh(sector) != SECTOR)
        fail(log->name, "is no log of dm-log-writes with sectors of 512 bytes");
    for (uint64_t entry = 0; entry < le64toh(entries); entry++)
        at += take_entry(log, at);
    flush();
}

int main(int count, char **words)
{
    struct file log, end;
    if (count < 5)
        return 2;
    disk = get(words[1]);
    log = get(words[2]);
    end = get(words[3]);
    many = count - 4;
    images = calloc((size_t)many, sizeof *images);
    trial = malloc(disk.size);
    if (images == NULL || trial == NULL || end.size != disk.size)
        fail(words[3], "can't be looked at");
    for (int image = 0; image < many; image++)
        images[image] = get(words[4 + image]);
    take_log(&log);
    if (memcmp(disk.bytes, end.bytes, disk.size) != 0)
        fail(words[3], "is not what the log leads to");
    if (now + 1 != many)
        fail(words[2], "has not a mark for each image");
    printf("%u writes, %u flushes, %u states: the image before %u, the new one %u, neither %u\n", writes, flushes, states, of_before,
           of_new, of_neither);
    return of_neither == 0 && of_new > 0 && of_before > 0 ? 0 : 1;
}
