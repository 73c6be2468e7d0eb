/* Common parts of the rows of check.c: a device whose program refuses images, and the checks of its state. */
#ifndef CHECKING_H
#define CHECKING_H
#include "driver.h"

#define STALLED (-1)

static const struct fate well = {WELL, 0, 0, 0};
static struct board board;
static int wrong;
static const char *row;

static void expect(const char *what, int holds) {
    if (!holds) {
        printf("check: %s: %s\n", row, what);
        wrong = 1;
    }
}

/* The images of this test: the check refuses W and accepts N. Neither fills whole units, except units of 1 byte. */
static uint8_t payload[2][71];
enum which { W, N };

static int32_t ask(uint8_t kind, uint8_t what, uint16_t value, uint16_t length, const uint8_t *body) {
    return request(&board, kind, what, value, length, body, &well);
}

static int32_t state(void) {
    return dfu_core_state(&board.record);
}

/* Checks that GETSTATUS returns this code and this state. */
static void status_is(const char *what, uint8_t code, uint8_t to) {
    expect(what, ask(0xa1, 3, 0, 6, NULL) == 6 && board.out[0] == code && board.out[4] == to);
}

/* Checks that this image is the active one. */
static void image_is(const char *what, const uint8_t *image, uint32_t length) {
    struct dfu_place place;
    expect(what, dfu_core_image(&config, board.flash, board.size, &place) == 0 && place.length == length
                     && memcmp(board.flash + place.at, image, length) == 0);
}

/* Checks that this image is the candidate: first its bytes on the flash, then those that are held back. */
static void candidate_is(const char *what, const uint8_t *image, uint32_t length) {
    struct dfu_place place;
    uint32_t unit = config.unit, whole = length - length % unit;
    expect(what, dfu_core_candidate(&config, &board.record, board.flash, board.size, &place) == 0 && place.length == whole
                     && board.record.held_length == length - whole && place.at + (size_t)place.length <= board.size
                     && memcmp(board.flash + place.at, image, whole) == 0
                     && memcmp(board.pending + config.transfer, image + whole, length - whole) == 0);
}

static void no_candidate(const char *what) {
    struct dfu_place place = {1, 2};
    expect(what, dfu_core_candidate(&config, &board.record, board.flash, board.size, &place) == DFU_NO_CANDIDATE && place.at == 1
                     && place.length == 2);
}

/* The DNLOAD that closes a download: the program passes it to the device, or refuses it. */
static const uint8_t closing[8] = {0x21, 1, 9, 0, 0, 0, 0, 0};
static int32_t refuse_close(uint32_t status) {
    return dfu_core_refuse_close(&config, &board.record, closing, status);
}

static int32_t refuse(uint32_t status) {
    return dfu_core_refuse(&config, &board.record, status);
}

/* The board before a call, to check that a refusal changes nothing, or only the mode. */
static struct board before;
static void keep(void) {
    before = board;
}

static int is_same(void) {
    return memcmp(&board, &before, sizeof board) == 0;
}

/* Checks that only the state changed: to dfuERROR, with this code. */
static void errs(const char *what, int32_t code) {
    expect(what, state() == DFU_STATE_ERROR && dfu_core_code(&board.record) == code
                     && memcmp(board.flash, before.flash, sizeof board.flash) == 0
                     && memcmp(board.pending, before.pending, sizeof board.pending) == 0
                     && board.record.put_end == before.record.put_end && board.record.slot == before.record.slot
                     && board.record.held_length == before.record.held_length && board.record.work == 0
                     && memcmp(board.record.header, before.record.header, sizeof board.record.header) == 0);
}

/* Makes a device in dfuIDLE with the one-byte image 00. */
static void begin(uint8_t attributes, uint32_t busy, uint32_t manifest, uint32_t unit, uint32_t sector) {
    static const uint8_t first[1] = {0};
    config.attributes = attributes;
    config.busy_ms = busy;
    config.manifest_ms = manifest;
    config.transfer = 20;
    expect("ship", ship_sectors(&board, unit, sector, sector != 0 ? sector : 256, first, 1) == 0);
    expect("begin", ask(0x21, 0, 1000, 0, NULL) == 0 && reset(&board) == 0 && state() == DFU_STATE_IDLE);
}

/* Sends an image, up to dfuDNLOAD-IDLE. After each block the candidate must be the bytes sent so far. */
static void download(enum which which) {
    uint16_t at = 0, number = 0;
    no_candidate("none in dfuIDLE");
    while (at < sizeof payload[0]) {
        uint16_t length = (uint16_t)(sizeof payload[0] - at < 20 ? sizeof payload[0] - at : 20);
        expect("DNLOAD", ask(0x21, 1, number++, length, payload[which] + at) == 0 && state() == DFU_STATE_DNLOAD_SYNC);
        no_candidate("none in dfuDNLOAD-SYNC");
        if (config.busy_ms != 0) {
            status_is("dfuDNBUSY", 0, DFU_STATE_DNBUSY);
            no_candidate("none in dfuDNBUSY");
            expect("the busy time", pass(&board, config.busy_ms, &well) == 0);
        }
        status_is("dfuDNLOAD-IDLE", 0, DFU_STATE_DNLOAD_IDLE);
        at = (uint16_t)(at + length);
        candidate_is("the candidate of a part", payload[which], at);
    }
}

#endif
