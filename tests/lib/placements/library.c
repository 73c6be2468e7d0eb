/* Compares the library with rows.cc: makes the part of each row in memory, carries out the change with the library in C, and prints the row
 * with the operations that it made. A unit of the model is 256 bytes, and each sector holds as many units as the row says. */
#include "dfu_home.h"
#include "dfu_trial.h"
#include <stdio.h>
#include <stdlib.h>
#include <string.h>

enum { UNIT = 256, MOST = 16 * 1024, SLOTS = 2, TRIES = 2, MOST_UNITS = 3, OPEN = 0xa5, OTHER = 0x77 };
static uint8_t flash[MOST], scratch[MOST], block[DFU_BLOCK_SIZE(MOST_UNITS * UNIT, UNIT)], data[MOST_UNITS * UNIT];
static uint32_t size, sector;
static int units, of_block, marks, count, failing;
static char said[1024];
static struct dfu_config config = {.version = DFU_VERSION, .vendor = 1, .product = 1, .device = 1, .detach_ms = 1000,
                                   .attributes = DFU_CAN_DNLOAD | DFU_CAN_UPLOAD | DFU_MANIFESTATION_TOLERANT, .least = 1, .unit = UNIT};

/* Writes an image: each digit of `image` is the value of all bytes of one unit. Returns the number of bytes. */
static uint32_t fill(const char *image, uint8_t *bytes) {
    for (size_t i = 0; i < strlen(image); i++)
        memset(bytes + i * UNIT, image[i] - '0', UNIT);
    return (uint32_t)strlen(image) * UNIT;
}

static void fail(const char *what) {
    printf("library: %s\n", what);
    exit(1);
}

static char *end(void) {
    return said + strlen(said);
}
/* Notes an operation as rows.cc prints it. */
static void note(char letter, uint32_t at) {
    const uint32_t slot = at / (size / 2), place = at % (size / 2);
    if (place < sector)
        sprintf(end(), " %cg%u", letter, slot);
    else if (place == sector)
        sprintf(end(), " %ch%u", letter, slot);
    else if (place < 2 * sector)
        sprintf(end(), " %cm%u.%u", letter, slot, (place - sector) / UNIT - 1);
    else
        sprintf(end(), " %cd%u.%u", letter, slot, (place - 2 * sector) / UNIT);
}

/* Writes to `out` the CRC register of the first `length` bytes of a slot's data, as little-endian bytes. It is that in the header of a
 * scratch flash that is formatted with these bytes. */
static void register_of(uint32_t slot, uint32_t length, uint8_t out[4]) {
    if (dfu_memory_format(&config, scratch, size, flash + slot * (size / 2) + 2 * sector, length) != 0)
        fail("a format in memory");
    memcpy(out, scratch + sector + 8, 4);
}
/* Notes the value of a program. For a header these are the generation modulo 4 and the length, and its CRC register must be that of the
 * data. */
static void note_value(uint32_t at, const uint8_t *bytes) {
    const uint32_t slot = at / (size / 2), place = at % (size / 2), length = bytes[4] | (uint32_t)bytes[5] << 8;
    uint8_t crc[4];
    if (place >= 2 * sector)
        sprintf(end(), "=%u", bytes[0]);
    if (place != sector)
        return;
    register_of(slot, length, crc);
    if (memcmp(crc, bytes + 8, 4) != 0)
        fail("a header without the register of its data");
    sprintf(end(), "=%u.%u", bytes[0] % 4, length / UNIT);
}
static int erase(void *own, uint32_t at, uint32_t length) {
    (void)own;
    if (length != sector || at % sector != 0)
        fail("an erase that is no sector");
    note('e', at);
    if (++count == failing)
        return 1;
    memset(flash + at, 0xff, length);
    return 0;
}
static int program(void *own, uint32_t at, const uint8_t *bytes, uint32_t length) {
    (void)own;
    if (length != UNIT || at % UNIT != 0)
        fail("a program that is no unit");
    note('p', at), note_value(at, bytes);
    if (++count == failing)
        return 1;
    for (uint32_t i = 0; i < length; i++)
        if (flash[at + i] != 0xff)
            fail("a byte is programmed that is not blank");
    memcpy(flash + at, bytes, length);
    return 0;
}
static const struct dfu_driver driver = {NULL, erase, program};
static struct dfu_device device = {.config = &config, .flash = flash, .block = block, .most = sizeof block, .driver = &driver};
static struct dfu_trial trial = {.flash = flash, .driver = &driver, .tries = {UNIT, 0, TRIES}};

static void make_header(int slot, const char *text) {
    uint8_t *header = flash + (uint32_t)slot * size / 2 + sector;
    int generation, length;
    char of[8];
    if (text[0] == '-')
        return;
    memset(header, 0, UNIT);
    if (text[0] == 'j') {
        header[0] = (uint8_t)atoi(text + 1), header[1] = 9;
        return;
    }
    if (sscanf(text, "%d.%d.%7s", &generation, &length, of) != 3)
        fail("a header");
    header[0] = (uint8_t)generation, header[1] = 2;
    header[4] = (uint8_t)(length * UNIT), header[5] = (uint8_t)(length * UNIT >> 8);
    register_of((uint32_t)(of[1] == 't' ? 1 - slot : slot), (uint32_t)length * UNIT, header + 8);
    header[8] ^= of[0] == 'n';
}
static void make_slot(int slot, int gate, const char *digits, const char *set) {
    uint8_t *at = flash + (uint32_t)slot * size / 2;
    if (gate != 0)
        memset(at, gate == 1 ? OPEN : 0, 1), memset(at + 1, 0, UNIT - 1);
    for (int i = 0; i < units; i++)
        if (digits[i] != '0')
            memset(at + 2 * sector + i * UNIT, digits[i] == '3' ? OTHER : digits[i] - '0', UNIT);
    for (int i = 0; i < marks; i++)
        if (set[i] == '1')
            at[sector + (uint32_t)(i + 1) * UNIT] = 0;
}

static int32_t request(uint8_t type, uint8_t what, uint16_t value, uint16_t length) {
    const uint8_t setup[8] = {type, what, (uint8_t)value, (uint8_t)(value >> 8), 0, 0, (uint8_t)length, (uint8_t)(length >> 8)};
    const int32_t n = marks ? dfu_trial_transfer(&trial, &device, setup) : 0;
    return n != 0 ? n : dfu_device_serve(&device, setup, data, data, sizeof data);
}
static void download(const char *image) {
    const int length = (int)strlen(image);
    char units_of_block[8];
    uint16_t number = 0;
    if (dfu_device_begin(&device) != 0)
        fail("a device");
    for (int from = 0; from < length; from += of_block, number++) {
        snprintf(units_of_block, sizeof units_of_block, "%.*s", of_block, image + from);
        const uint16_t some = (uint16_t)fill(units_of_block, data);
        if (request(0x21, DFU_DNLOAD, number, some) != 0 || request(0xa1, DFU_GETSTATUS, 0, 6) != 6 || data[4] != DFU_STATE_DNLOAD_IDLE)
            fail("a block");
    }
    if (request(0x21, DFU_DNLOAD, number, 0) != 0 || request(0xa1, DFU_GETSTATUS, 0, 6) != 6 || data[4] != DFU_STATE_IDLE)
        fail("the end of a download");
}
/* Carries out a change; `of` is the last word of its row. */
static void change(const char *name, const char *of) {
    const uint32_t number = (uint32_t)atoi(of);
    struct dfu_place place;
    int32_t n = 0;
    count = failing = 0;
    if (strcmp(name, "copy") == 0)
        failing = (int)number, n = dfu_home_settle(&device, &place);
    else if (strcmp(name, "download") == 0)
        download(of);
    else if (strcmp(name, "format") == 0)
        n = dfu_device_format(&device, data, fill(of, data));
    else if (strcmp(name, "start") == 0)
        n = dfu_trial_boot(&trial, &place);
    else if (strcmp(name, "end") == 0)
        n = dfu_trial_give_up(&trial);
    else if ((n = dfu_trial_accept(&trial, number * size / 2 + 2 * sector)) == DFU_ELSEWHERE)
        n = 0;
    if (n != 0)
        fail(name);
}

/* Makes the part of a row: blank except for the cells that the row lists. */
static void make_part(int of_sector, const int *gates, char heads[SLOTS][16], char digits[SLOTS][8], char set[SLOTS][8]) {
    sector = config.sector = trial.tries.sector = (uint32_t)of_sector * UNIT;
    size = DFU_MEDIUM_SIZE(UNIT, sector, ((uint32_t)units * UNIT + sector - 1) / sector * sector);
    config.transfer = (uint16_t)(of_block * UNIT);
    device.size = trial.size = size;
    memset(flash, 0xff, sizeof flash), said[0] = 0;
    for (int slot = 0; slot < SLOTS; slot++)
        make_slot(slot, gates[slot], digits[slot], set[slot]);
    for (int slot = 0; slot < SLOTS; slot++)
        make_header(slot, heads[slot]);
}

int main(void) {
    char line[1024], heads[SLOTS][16], digits[SLOTS][8], set[SLOTS][8], name[16], of[8];
    int of_sector, gates[SLOTS];
    while (fgets(line, sizeof line, stdin)) {
        if (sscanf(line, "%d %d %d %d %d %15s %7s %7s %d %15s %7s %7s %15s %7[^:]", &of_sector, &units, &of_block, &marks, &gates[0],
                   heads[0], digits[0], set[0], &gates[1], heads[1], digits[1], set[1], name, of) != 14)
            fail(line);
        make_part(of_sector, gates, heads, digits, set);
        change(name, of);
        *strchr(line, ':') = 0;
        printf("%s:%s\n", line, said);
    }
    return 0;
}
