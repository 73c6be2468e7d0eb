/* The device, and its flash: a NOR flash in memory and in a file. It is erased by sectors, and a program needs erased bytes; else the test
 * ends. The file is written in parts, so that a killed process leaves only some of them. */
#define _GNU_SOURCE
#include "board.h"
#include <errno.h>
#include <fcntl.h>
#include <stdio.h>
#include <stdlib.h>
#include <string.h>
#include <unistd.h>

uint8_t flash[FLASH_SIZE];
unsigned flash_erase_ms, flash_fails;
unsigned long flash_erases, flash_programs;
static int file = -1;

static void die(const char *why)
{
    fprintf(stderr, "flash: %s: %s\n", why, strerror(errno));
    exit(1);
}

bool flash_open(const char *path)
{
    file = open(path, O_RDWR | O_CREAT | O_CLOEXEC, 0666);
    return file >= 0 && pread(file, flash, sizeof flash, 0) >= 0;
}

static void put(uint32_t at, const uint8_t *bytes, uint32_t length)
{
    memcpy(flash + at, bytes, length);
    if (file >= 0 && (pwrite(file, bytes, length, at) != (ssize_t)length || fdatasync(file) != 0))
        die("write");
}

/* Returns the number of bytes that an operation changes: all, or half if it fails. */
static uint32_t part(uint32_t length)
{
    return flash_fails > 0 && (unsigned)rand() % flash_fails == 0 ? length / 2 : length;
}

static int erase(void *own, uint32_t at, uint32_t length)
{
    static uint8_t ones[SECTOR / 8];
    const uint32_t all = part(length);
    (void)own;
    memset(ones, 0xff, sizeof ones);
    if (at % SECTOR != 0 || length != SECTOR || at >= FLASH_SIZE)
        die("an erase of no sector");
    flash_erases++;
    for (uint32_t done = 0; done < all; done += sizeof ones) {
        put(at + done, ones, sizeof ones);
        if (flash_erase_ms > 0)
            usleep(flash_erase_ms * 125);
    }
    return all != length;
}

static int program(void *own, uint32_t at, const uint8_t *bytes, uint32_t length)
{
    const uint32_t all = part(length);
    (void)own;
    if (at % UNIT != 0 || length == 0 || length % UNIT != 0 || at > FLASH_SIZE || length > FLASH_SIZE - at)
        die("a program of no unit");
    flash_programs++;
    for (uint32_t done = 0; done < length; done++)
        if (flash[at + done] != 0xff)
            die("a program of what is not erased");
    for (uint32_t done = 0; done < all; done += UNIT / 4)
        put(at + done, bytes + done, UNIT / 4);
    return all != length;
}

const struct dfu_driver flash_driver = {NULL, erase, program};

static uint8_t block[DFU_BLOCK_SIZE(4096, 256)];
struct dfu_device device = {
    .config = &config, .flash = flash, .size = sizeof flash, .block = block, .most = sizeof block, .driver = &flash_driver};
