/* Counts the erases and programs that each block needs, and those that make an image active. Their numbers must not exceed the macros of
 * dfu_device.h, and must reach them for some unit, sector and transfer size. A format needs exactly the numbers of its macros. Formats and
 * downloads are random, with blocks of any size, over flash in memory. Argument: the number of downloads. */
#include <stdio.h>
#include <stdlib.h>
#include <string.h>

#include "dfu_device_memory.h"

#define MOST 4096

static struct dfu_config config = {DFU_VERSION, 0x0100, 1, 0x1209, 255, 8, 7, 0, 0, 0, 1, 1, 0, 0, 0};
static uint8_t medium[DFU_MEDIUM_SIZE(256, 8192, 65536)], block[DFU_BLOCK_SIZE(MOST, 256)], body[MOST], out[MOST], image[20000];
static uint32_t dice = 1, erases, programs;
static long blocks, all_erases, all_programs;

/* Numbers of blocks, and of images made active, that needed exactly as many erases or programs as the macros say. */
static struct { long erases, programs; } of_blocks, of_commits, *full;

static int erase(void *own, uint32_t at, uint32_t length) {
    erases++, all_erases++;
    return dfu_memory_erase(own, at, length);
}

static int program(void *own, uint32_t at, const uint8_t *bytes, uint32_t length) {
    programs++, all_programs++;
    return length < 1 || length > 256 || dfu_memory_program(own, at, bytes, length);
}

static const struct dfu_driver driver = {medium, erase, program};
static struct dfu_device dfu = {.config = &config, .flash = medium, .block = block, .most = sizeof block, .driver = &driver};

static uint32_t roll(uint32_t sides) {
    dice = dice * 1664525u + 1013904223u;
    return (dice >> 8) % sides;
}

static int32_t serve(uint8_t kind, uint8_t request, uint16_t value, uint16_t length) {
    const uint8_t setup[8] = {kind, request, (uint8_t)value, (uint8_t)(value >> 8), 0, 0, (uint8_t)length, (uint8_t)(length >> 8)};
    return dfu_device_serve(&dfu, setup, body, out, sizeof out);
}

/* Sends GETSTATUS, which carries out the operations. Returns 1 if the status is OK, and there were at most this many
 * erases and programs. */
static int is_within(uint32_t most_erases, uint32_t most_programs) {
    erases = programs = 0;
    if (serve(0xa1, DFU_GETSTATUS, 0, 6) != 6 || out[0] != DFU_STATUS_OK)
        return 0;
    full->erases += most_erases > 0 && erases == most_erases;
    full->programs += programs == most_programs;
    if (erases <= most_erases && programs <= most_programs)
        return 1;
    printf("counts: %u erases of %u, %u programs of %u, unit %u, sector %u, transfer %u\n", (unsigned)erases, (unsigned)most_erases,
           (unsigned)programs, (unsigned)most_programs, (unsigned)config.unit, (unsigned)config.sector, config.transfer);
    return 0;
}

/* Downloads this many bytes. Returns 1 on success. */
static int download(uint32_t left) {
    uint16_t number = 0;
    while (left > 0) {
        uint32_t length = roll(3) ? config.transfer : 1 + roll(config.transfer);
        length = length < left ? length : left;
        full = &of_blocks;
        if (serve(0x21, DFU_DNLOAD, number++, (uint16_t)length) != 0
            || !is_within(DFU_BLOCK_ERASES(config.transfer, config.sector), DFU_BLOCK_PROGRAMS(config.transfer)))
            return 0;
        left -= length, blocks++;
    }
    full = &of_commits;
    return serve(0x21, DFU_DNLOAD, number, 0) == 0 && is_within(DFU_COMMIT_ERASES(config.sector), DFU_COMMIT_PROGRAMS);
}

/* Formats with an image of this length. Returns 1 if the operations were exactly as many as the macros say. */
static int format(uint32_t length) {
    const uint32_t all = DFU_FORMAT_ERASES(length, config.sector), more = DFU_FORMAT_PROGRAMS(length, config.sector);
    erases = programs = 0;
    if (dfu_device_format(&dfu, image, length) == 0 && erases == all && programs == more)
        return 1;
    printf("counts: a format of %u bytes: %u erases of %u, %u programs of %u, unit %u, sector %u\n", (unsigned)length, (unsigned)erases,
           (unsigned)all, (unsigned)programs, (unsigned)more, (unsigned)config.unit, (unsigned)config.sector);
    return 0;
}

/* Downloads twice to a board with a random unit, sector and transfer size. The second download must first close an open gate. */
static int both(void) {
    static const uint32_t units[] = {1, 16, 64, 256}, sectors[] = {0, 256, 512, 1024, 4096, 8192};
    config.unit = units[roll(4)], config.sector = sectors[roll(6)];
    config.transfer = (uint16_t)(1 + roll(roll(2) ? MOST : 700));
    dfu.size = DFU_MEDIUM_SIZE(config.unit, config.sector, 65536);
    return format(roll(roll(2) ? 300 : sizeof image + 1)) && dfu_device_begin(&dfu) == 0 && download(1 + roll(30000))
        && download(1 + roll(30000));
}

int main(int count, char **words) {
    long all = count > 1 ? atol(words[1]) : 1000;
    for (long turn = 0; turn < all; turn++)
        if (!both())
            return printf("counts: download %ld failed\n", turn), 1;
    printf("counts: %ld blocks, %ld erases, %ld programs; as many as the most: %ld and %ld of a block, %ld and %ld of an image\n", blocks,
           all_erases, all_programs, of_blocks.erases, of_blocks.programs, of_commits.erases, of_commits.programs);
    return all >= 300 && (of_blocks.erases == 0 || of_blocks.programs == 0 || of_commits.erases == 0 || of_commits.programs == 0);
}
