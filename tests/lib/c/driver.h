/* Common parts of the programs that test the device over flash: flash in memory, a driver that writes it, and the loop of a program, over
 * the calls of dfu_core.h. Flash with sectors behaves like NOR flash: a program needs a range that was erased, and an erase covers a whole
 * sector. */
#ifndef DRIVER_H
#define DRIVER_H
#include <stdio.h>
#include <stdlib.h>
#include <string.h>

#include "dfu_device_memory.h"

#define MOST_SECTOR 512
#define MOST_FLASH (2 * (2 * MOST_SECTOR + 1024))
#define MOST_BLOCK 512

static struct dfu_config config = {DFU_VERSION, 0x0100, 1, 0x1209, 20, 20, 7, 0, 0, 0, 1, 1, 0, 0, 0};
static uint32_t dice = 1;

static inline uint32_t roll(uint32_t sides) {
    dice = dice * 1664525u + 1013904223u;
    return (dice >> 8) % sides;
}

/* Flash, with a device on it. */
struct board {
    struct dfu_record record;
    uint8_t flash[MOST_FLASH], pending[DFU_BLOCK_SIZE(MOST_BLOCK, 256)], out[MOST_BLOCK];
    size_t size;
    uint32_t unit, sector;
};

/* Fault of the pending writes: none; or write number `write` fails, reports success with a wrong bit, or is cut off by a loss of power. A
 * write that fails or is cut off writes only its first `behind` bytes, and with `torn` random bytes after them. */
enum trouble { WELL, FAILS, LIES, CUT };
struct fate {
    enum trouble trouble;
    int torn;
    uint32_t write, behind;
};

/* Number of writes so far, length of the last one, and 1 if power was lost. */
static uint32_t writes, last_length;
static int is_off;

/* Returns 1 if an operation is valid for this flash. */
static inline int is_ask(const struct board *board, const struct dfu_ask *ask) {
    uint32_t whole = ask->kind == DFU_ERASE ? board->sector : board->unit;
    if (whole == 0 || ask->length < 1 || ask->at + (size_t)ask->length > board->size || ask->at % whole != 0 || ask->length % whole != 0)
        return 0;
    if (ask->kind == DFU_ERASE)
        return ask->length == board->sector;
    for (uint32_t i = 0; board->sector != 0 && i < ask->length; i++)
        if (board->flash[ask->at + i] != 0xff)
            return 0;
    return ask->kind == DFU_PROGRAM && ask->length <= 256;
}

static inline int program(struct board *board, const struct dfu_ask *ask, const struct fate *fate) {
    int is_meant = fate->trouble != WELL && writes == fate->write;
    uint8_t *to = board->flash + ask->at, blank[MOST_SECTOR];
    const uint8_t *from = ask->kind == DFU_ERASE ? blank : ask->bytes;
    memset(blank, 0xff, sizeof blank);
    if (!is_ask(board, ask)) {
        printf("an ask that is none: kind %u, at %u, length %u\n", (unsigned)ask->kind, (unsigned)ask->at, (unsigned)ask->length);
        exit(1);
    }
    writes++;
    last_length = ask->length;
    if (!is_meant) {
        memcpy(to, from, ask->length);
        return 0;
    }
    if (fate->trouble == LIES) {
        memcpy(to, from, ask->length);
        to[roll(ask->length)] ^= 1;
        return 0;
    }
    memcpy(to, from, fate->behind);
    for (uint32_t i = fate->behind; fate->torn && i < ask->length; i++)
        to[i] = (uint8_t)roll(256);
    is_off = fate->trouble == CUT;
    return 1;
}

/* Carries out the pending operations with this fault. Returns the answer of the call that needed them. */
static inline int32_t settle(struct board *board, int32_t answer, const struct fate *fate) {
    while (answer == DFU_WRITE_PENDING && !is_off) {
        struct dfu_ask ask;
        int32_t refused = dfu_core_next(&config, &board->record, board->pending, sizeof board->pending, board->flash, board->size, &ask);
        if (refused != 0)
            return refused;
        uint32_t failed = (uint32_t)program(board, &ask, fate);
        if (is_off)
            break;
        answer = dfu_core_took(&config, &board->record, board->pending, sizeof board->pending, board->flash, board->size, failed,
                                 board->out, sizeof board->out);
    }
    return answer;
}

static inline int32_t transfer(struct board *board, const uint8_t setup[8], const uint8_t *body, const struct fate *fate) {
    size_t length = setup[0] == 0x21 ? (size_t)(setup[6] | setup[7] << 8) : 0;
    return settle(board, dfu_core_handle(&config, &board->record, board->pending, sizeof board->pending, board->flash, board->size,
                                           setup, body, length, board->out, sizeof board->out), fate);
}

static inline int32_t request(struct board *board, uint8_t kind, uint8_t what, uint16_t value, uint16_t length, const uint8_t *body,
                              const struct fate *fate) {
    uint8_t setup[8] = {kind, what, (uint8_t)value, (uint8_t)(value >> 8), 0, 0, (uint8_t)length, (uint8_t)(length >> 8)};
    return transfer(board, setup, body, fate);
}

static inline int32_t pass(struct board *board, uint32_t ms, const struct fate *fate) {
    return settle(board, dfu_core_elapse(&config, &board->record, board->pending, sizeof board->pending, board->flash, board->size, ms),
                  fate);
}

static inline int32_t reset(struct board *board) {
    return dfu_core_usb_reset(&config, &board->record, board->pending, sizeof board->pending, board->flash, board->size);
}

static inline int32_t power_on(struct board *board) {
    is_off = 0;
    return dfu_core_power_on(&config, &board->record, board->flash, board->size);
}

/* Makes a board with flash of this unit and sector, for images of at most `capacity` bytes, and formats it with this image. */
static inline int32_t ship_sectors(struct board *board, uint32_t unit, uint32_t sector, size_t capacity, const uint8_t *image,
                                   size_t length) {
    memset(board, 0x5a, sizeof *board);
    board->unit = unit;
    board->sector = sector;
    board->size = DFU_MEDIUM_SIZE(unit, sector, capacity);
    config.unit = unit, config.sector = sector;
    int32_t made = dfu_memory_format(&config, board->flash, board->size, image, length);
    return made != 0 ? made : power_on(board);
}

static inline int32_t ship(struct board *board, uint32_t unit, size_t capacity, const uint8_t *image, size_t length) {
    return ship_sectors(board, unit, 0, capacity, image, length);
}

/* Chooses the next request of a host: mostly a correct one, else a random one. */
static inline void choose(const struct dfu_record *record, uint16_t most, uint8_t setup[8]) {
    int32_t state = dfu_core_state(record);
    uint16_t number = state == 2 ? 0 : record->number, length = 0;
    uint8_t kind = 0x21, what = 1;
    if (state == 0 || state == 1)
        what = 0, number = 1000;
    else if (state == 3 || state == 6)
        kind = 0xa1, what = 3, number = 0, length = (uint16_t)(roll(9) ? 6 : roll(9));
    else if (state == 5)
        length = roll(3) ? (uint16_t)(1 + roll(most)) : 0;
    else if (state == 10)
        what = 4, number = 0;
    else if (roll(3))
        length = (uint16_t)(1 + roll(most));
    else
        kind = 0xa1, what = 2, length = (uint16_t)(1 + roll(most));
    if (roll(12) == 0)
        kind = roll(2) ? 0x21 : 0xa1, what = (uint8_t)roll(8), number = (uint16_t)roll(3), length = (uint16_t)roll(most + 1u);
    uint8_t bytes[8] = {kind, what, (uint8_t)number, (uint8_t)(number >> 8), 0, 0, (uint8_t)length, (uint8_t)(length >> 8)};
    memcpy(setup, bytes, 8);
}

#endif
