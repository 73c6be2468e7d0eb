/* Tests the memory that a program lends for the block. With one byte less than DFU_BLOCK_SIZE each call that needs the memory returns
 * DFU_NO_BLOCK and changes nothing, with pending operations and without. A download touches no byte beyond the lent memory, in each unit,
 * in place and with sectors. The bytes held back are stored after the transfer size, and follow the bytes on the flash in the candidate. */
#include <stdio.h>
#include <stdlib.h>
#include <string.h>

#include "dfu_device_memory.h"

enum { TRANSFER = 20, IMAGE = 530, CAPACITY = 1024, GUARD = 64, MARK = 0x5a };
static const uint32_t units[] = {1, 16, 64, 256}, sectors[] = {0, 512};
static struct dfu_config config = {DFU_VERSION, 0x0100, 1, 0x1209, 20, TRANSFER, 7, 0, 0, 0, 1, 1, 0, 0, 0};
static uint8_t medium[DFU_MEDIUM_SIZE(256, 512, CAPACITY)], image[IMAGE], data[TRANSFER];
static const struct dfu_driver driver = DFU_MEMORY_DRIVER(medium);
static struct dfu_device dfu = {.config = &config, .flash = medium, .driver = &driver};
static size_t least, behind;
static long refusals, held;
static int wrong;

static void expect(const char *what, int holds) {
    if (!holds) {
        printf("lent: %s; unit %u, sector %u, behind %u\n", what, (unsigned)config.unit, (unsigned)config.sector, (unsigned)behind);
        wrong = 1;
    }
}

/* With one byte less than `least`, each call is refused, and changes nothing. */
static void is_refused(void) {
    static const uint8_t setup[8] = {0xa1, DFU_GETSTATUS, 0, 0, 0, 0, 6, 0};
    static uint8_t flash[sizeof medium], block[DFU_BLOCK_SIZE(TRANSFER, 256)];
    const struct dfu_record record = dfu.record;
    struct dfu_ask ask = {7, 7, 7, {7}};
    uint8_t out[TRANSFER] = {MARK};
    memcpy(flash, medium, sizeof medium), memcpy(block, dfu.block, least);
    dfu.most = least - 1;
    expect("handle", dfu_device_handle(&dfu, setup, data, out, sizeof out) == DFU_NO_BLOCK);
    expect("elapse", dfu_device_elapse(&dfu, 1) == DFU_NO_BLOCK);
    expect("usb_reset", dfu_device_usb_reset(&dfu) == DFU_NO_BLOCK);
    expect("next", dfu_device_next(&dfu, &ask) == DFU_NO_BLOCK && ask.kind == 7 && ask.bytes[0] == 7);
    expect("took", dfu_device_took(&dfu, 0, out, sizeof out) == DFU_NO_BLOCK && out[0] == MARK);
    dfu.most = least;
    expect("nothing changed", memcmp(&record, &dfu.record, sizeof record) == 0 && memcmp(flash, medium, sizeof medium) == 0
                                  && memcmp(block, dfu.block, least) == 0);
    refusals++;
}

/* Makes a request, and carries out its operations. */
static int32_t request(uint8_t kind, uint8_t what, uint16_t value, uint16_t length) {
    const uint8_t setup[8] = {kind, what, (uint8_t)value, (uint8_t)(value >> 8), 0, 0, (uint8_t)length, 0};
    is_refused();
    int32_t n = dfu_device_handle(&dfu, setup, data, data, sizeof data);
    while (n == DFU_WRITE_PENDING) {
        struct dfu_ask ask;
        is_refused();
        n = dfu_device_next(&dfu, &ask);
        if (n == 0)
            n = dfu_device_took(&dfu, dfu_device_carry_out(&driver, &ask), data, sizeof data);
    }
    for (size_t i = 0; i < behind; i++)
        expect("a byte behind the memory", dfu.block[least + i] == MARK);
    return n;
}

static void status_is(uint8_t state) {
    expect("status", request(0xa1, DFU_GETSTATUS, 0, 6) == 6 && data[0] == DFU_STATUS_OK && data[4] == state);
}

static void candidate_is(uint32_t length) {
    struct dfu_place place;
    expect("candidate", dfu_device_candidate(&dfu, &place) == 0 && place.length + dfu.record.held_length == length
                            && dfu.record.held_length < config.unit && memcmp(medium + place.at, image, place.length) == 0
                            && memcmp(dfu.block + TRANSFER, image + place.length, dfu.record.held_length) == 0);
    held += dfu.record.held_length > 0;
}

static void download(void) {
    struct dfu_place place;
    uint16_t number = 0;
    for (uint32_t at = 0; at < IMAGE; at += TRANSFER) {
        const uint16_t length = (uint16_t)(IMAGE - at < TRANSFER ? IMAGE - at : TRANSFER);
        memcpy(data, image + at, length);
        expect("DNLOAD", request(0x21, DFU_DNLOAD, number++, length) == 0);
        status_is(DFU_STATE_DNLOAD_IDLE);
        candidate_is(at + length);
    }
    expect("close", request(0x21, DFU_DNLOAD, number, 0) == 0);
    candidate_is(IMAGE);
    status_is(DFU_STATE_IDLE);
    expect("image", dfu_device_image(&dfu, &place) == 0 && place.length == IMAGE && memcmp(medium + place.at, image, IMAGE) == 0);
}

int main(void) {
    for (size_t i = 0; i < sizeof image; i++)
        image[i] = (uint8_t)(i * 7 + 1);
    for (int turn = 0; turn < 16; turn++) {
        config.unit = units[turn % 4], config.sector = sectors[turn / 4 % 2], behind = turn < 8 ? 0 : GUARD;
        least = DFU_BLOCK_SIZE(TRANSFER, config.unit);
        dfu.size = DFU_MEDIUM_SIZE(config.unit, config.sector, CAPACITY), dfu.most = least, dfu.block = malloc(least + behind);
        if (dfu.block == NULL)
            return 1;
        memset(dfu.block, MARK, least + behind);
        expect("begin", dfu_device_format(&dfu, image, 1) == 0 && dfu_device_begin(&dfu) == 0);
        download();
        free(dfu.block);
    }
    printf("lent: %ld times a byte less, %ld candidates in part in memory\n", refusals, held);
    return wrong || refusals == 0 || held == 0;
}
