/* Makes calls with garbled records or flash, over plain memory, and carries out the requested operations. Each call must return an answer
 * or a refusal, and write only to its own memory. A refused call changes nothing. Argument: the number of calls. */
#include <stdio.h>
#include <stdlib.h>
#include <string.h>

#include "dfu_device_memory.h"

static const struct dfu_config config = {DFU_VERSION, 0x0100, 1, 0x1209, 255, 8, 7, 0, 5, 10, 1, 1, 0, 0, 0};
static uint32_t dice = 1;
static long operations;

static uint32_t roll(uint32_t sides) {
    dice = dice * 1664525u + 1013904223u;
    return (dice >> 8) % sides;
}

/* Returns 1 if a header is of version 2 and its length is possible. */
static int is_formed(const uint8_t *header) {
    return header[1] == 2 && !header[2] && !header[3] && !header[12] && !header[13] && !header[14] && !header[15]
        && (header[4] | header[5] << 8 | header[6] << 16 | (uint32_t)header[7] << 24) <= 64;
}

/* Returns 1 if the first of two slots is the active one, by gates and headers alone. */
static int is_newest(const uint8_t *mine, const uint8_t *other) {
    if (mine[0] != 0xa5 || !is_formed(mine + 16))
        return 0;
    if (other[0] != 0xa5 || (other[17] == 2 && !is_formed(other + 16)))
        return 1;
    return mine[16] == (uint8_t)(other[16] + 1);
}

/* Carries out the requested operations. Returns the answer, or DFU_WRITE_PENDING if next or took refuses this record, flash and room. */
static int32_t settle(const struct dfu_config *used, struct dfu_record *record, uint8_t *block, size_t most, uint8_t *medium,
                      uint8_t *out, size_t room) {
    int32_t result = DFU_WRITE_PENDING;
    while (result == DFU_WRITE_PENDING) {
        struct dfu_ask ask;
        if (dfu_core_next(used, record, block, most, medium, 192, &ask) != 0)
            return DFU_WRITE_PENDING;
        dfu_memory_program(medium, ask.at, ask.bytes, ask.length);
        result = dfu_core_took(used, record, block, most, medium, 192, 0, out, room);
        operations++;
        if (result < -1)
            return DFU_WRITE_PENDING;
    }
    return result;
}

int main(int count, char **words) {
    /* Each buffer has guard bytes before and after it. */
    static uint8_t field[64 + 192 + 64], given[64 + 8 + 64], held[64 + DFU_BLOCK_SIZE(8, 17) + 4 + 64], start[192];
    static uint8_t field_before[sizeof field], given_before[sizeof given], tail_before[sizeof held];
    static struct dfu_record records[3], record_before;
    struct dfu_record *record = &records[1];
    uint8_t *medium = field + 64, *out = given + 64, *block = held + 64;
    long answered = 0, refused = 0, all = count > 1 ? atol(words[1]) : 1000;
    if (dfu_memory_format(&config, start, sizeof start, (const uint8_t *)"\x11\x22", 2) != 0)
        return 1;
    for (long call = 0; call < all; call++) {
        uint8_t body[8] = {1, 2, 3, 4, 5, 6, 7, 8};
        uint8_t setup[8] = {roll(2) ? 0x21 : 0xa1, (uint8_t)roll(8), (uint8_t)roll(3), 0, 0, 0, (uint8_t)roll(9), 0};
        memset(field, 0x5a, sizeof field);
        memset(given, 0x5a, sizeof given);
        memset(held, 0x5a, sizeof held);
        memset(records, 0x5a, sizeof records);
        memcpy(medium, start, sizeof start);
        if (roll(2))
            medium[roll(192)] = (uint8_t)roll(256);
        /* In half of the calls the spare slot's gate is closed, so that data there is allowed. */
        if (roll(2))
            medium[96] = 0;
        /* The unit is 1 or 16. In seven of eight calls held_length is the remainder of put_end by the unit. */
        struct dfu_config used = config;
        used.unit = roll(2) ? 1 : 16;
        memset(record, 0, sizeof *record);
        record->version = DFU_VERSION + (roll(16) == 0), record->mode = roll(14), record->first = roll(12), record->second = roll(20);
        record->put_end = roll(12), record->slot = roll(8) ? 0 : roll(3);
        record->number = (uint16_t)roll(18), record->length = (uint16_t)roll(10);
        block[8] = 1, block[9] = 2, block[10] = 3;
        record->held_length = (uint16_t)(roll(8) ? record->put_end % used.unit : roll(300));
        /* In seven of eight calls the record has a header that is on the flash. */
        if (roll(8))
            memcpy(record->header, medium + (record->slot ? 96 : 0) + 16, 16);
        if (roll(4) == 0)
            ((uint8_t *)record)[roll(sizeof *record)] = (uint8_t)roll(256);
        /* Of sixteen calls one has too little room, three have a wrong configuration, one has both, and one has too small a block. */
        uint32_t fault = roll(16);
        size_t room = fault == 0 || fault == 2 ? roll(8) : 8;
        if (fault == 1 || fault == 2)
            used.busy_ms = 0x1000000;
        if (fault == 4)
            used.version++;
        if (fault == 5)
            used.unit = 17;
        size_t least = DFU_BLOCK_SIZE(8, used.unit), most = fault == 3 ? roll((uint32_t)least) : least + roll(5);
        memcpy(field_before, field, sizeof field);
        memcpy(given_before, given, sizeof given);
        memcpy(tail_before, held, sizeof held);
        record_before = *record;
        int32_t result, what = (int32_t)roll(6);
        if (what == 0)
            result = dfu_core_elapse(&used, record, block, most, medium, 192, roll(12));
        else if (what == 1 && roll(4) == 0)
            result = dfu_core_usb_reset(&used, record, block, most, medium, 192);
        else if (what == 2 && roll(4) == 0)
            result = dfu_core_power_on(&used, record, medium, 192);
        else
            result = dfu_core_handle(&used, record, block, most, medium, 192, setup, body, setup[0] == 0x21 ? setup[6] : 0, out, room);
        if (result == DFU_WRITE_PENDING)
            result = settle(&used, record, block, most, medium, out, room);
        *(result >= -1 ? &answered : &refused) += 1;
        if (room < 8 && what > 2 && result != DFU_NO_ROOM)
            return printf("garbled: call %ld has no room and answered %d\n", call, (int)result), 1;
        if (most < least && what < 2 && result >= -1)
            return printf("garbled: call %ld has no block and answered %d\n", call, (int)result), 1;
        if (result < -1 && result != DFU_WRITE_PENDING && (memcmp(field_before, field, sizeof field) != 0
            || memcmp(given_before, given, sizeof given) != 0
            || memcmp(tail_before, held, sizeof held) != 0 || memcmp(&record_before, record, sizeof *record) != 0))
            return printf("garbled: call %ld was refused with %d and changed something\n", call, (int)result), 1;
        /* The slot that the record names must not be written if it is the active one on the flash. */
        size_t slot = record_before.slot ? 96 : 0, spare = 96 - slot;
        if ((result >= -1 || result == DFU_WRITE_PENDING) && is_newest(field_before + 64 + slot, field_before + 64 + spare)
            && memcmp(record_before.header, field_before + 64 + slot + 16, 16) == 0
            && memcmp(field_before + 64 + slot, medium + slot, 96) != 0)
            return printf("garbled: call %ld wrote in the active slot\n", call), 1;
        if ((result < DFU_NO_ROOM && result != DFU_NO_BLOCK && result != DFU_WRITE_PENDING && result != DFU_BUSY) || result > 8)
            return printf("garbled: call %ld answered %d\n", call, (int)result), 1;
        for (size_t i = 0; i < 64; i++)
            if (field[i] != 0x5a || field[256 + i] != 0x5a || given[i] != 0x5a || given[72 + i] != 0x5a || held[i] != 0x5a
                || held[64 + most + i] != tail_before[64 + most + i])
                return printf("garbled: call %ld wrote outside\n", call), 1;
        for (size_t i = 0; i < sizeof *record; i++)
            if (((uint8_t *)&records[0])[i] != 0x5a || ((uint8_t *)&records[2])[i] != 0x5a)
                return printf("garbled: call %ld wrote outside the record\n", call), 1;
    }
    printf("garbled: %ld calls, %ld answered, %ld refused, %ld operations\n", all, answered, refused, operations);
    return answered == 0 || refused == 0 || operations == 0;
}
