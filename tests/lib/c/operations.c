/* Tests the calls of dfu_core.h: the answer of each, the operations that it requests, and each refusal in its order. */
#include "driver.h"

static const struct fate well = {WELL, 0, 0, 0};
static struct board board;
static int wrong;

static void expect(const char *what, int holds) {
    if (!holds) {
        printf("operations: %s\n", what);
        wrong = 1;
    }
}

static int32_t handle(uint8_t kind, uint8_t what, uint16_t value, uint16_t length, const char *body) {
    uint8_t setup[8] = {kind, what, (uint8_t)value, (uint8_t)(value >> 8), 0, 0, (uint8_t)length, (uint8_t)(length >> 8)};
    return dfu_core_handle(&config, &board.record, board.pending, sizeof board.pending, board.flash, board.size, setup,
                             (const uint8_t *)body, kind == 0x21 ? length : 0, board.out, sizeof board.out);
}

static int32_t next(struct dfu_ask *ask) {
    return dfu_core_next(&config, &board.record, board.pending, sizeof board.pending, board.flash, board.size, ask);
}

static int32_t took(uint32_t failed) {
    return dfu_core_took(&config, &board.record, board.pending, sizeof board.pending, board.flash, board.size, failed, board.out,
                           sizeof board.out);
}

/* Checks that the next write has this many bytes at this offset, and this first byte. Carries it out, and checks the result of took. */
static void write_is(const char *what, uint32_t at, uint32_t length, uint8_t first, int32_t then) {
    struct dfu_ask ask;
    expect(what, next(&ask) == 0 && ask.kind == DFU_PROGRAM && ask.at == at && ask.length == length && ask.bytes[0] == first);
    memcpy(board.flash + at, ask.bytes, length);
    expect(what, took(0) == then);
}

/* Checks a download of 20 bytes in units of 16, on flash whose second slot is spare. A slot has 32 + 64 bytes. */
static void a_download(void) {
    struct dfu_ask ask;
    config.transfer = 20;
    config.busy_ms = 5;
    config.manifest_ms = 0;
    expect("ship", ship(&board, 16, 64, (const uint8_t *)"\x11\x22", 2) == 0 && board.size == 192);
    expect("state", dfu_core_state(&board.record) == 0);
    expect("DETACH", handle(0x21, 0, 1000, 0, "") == 0 && dfu_core_due(&config, &board.record) == 20);
    expect("reset", reset(&board) == 0 && dfu_core_state(&board.record) == 2);
    expect("nothing is due", next(&ask) == DFU_NO_DEVICE && took(0) == DFU_NO_DEVICE);
    expect("DNLOAD", handle(0x21, 1, 0, 20, "abcdefghijklmnopqrst") == 0);
    expect("GETSTATUS", handle(0xa1, 3, 0, 6, "") == 6 && board.out[1] == 5 && board.out[4] == 4);
    uint8_t setup[8] = {0xa1, 3, 0, 0, 0, 0, 6, 0}, long_one[8] = {0x21, 1, 0, 0, 0, 0, 21, 0};
    expect("would stall", dfu_core_would_stall(&config, &board.record, board.size, setup) == 1);
    expect("not long", dfu_core_too_long(&config, &board.record, setup) == DFU_NOT_LONG);
    expect("too early", pass(&board, 4, &well) == 0 && dfu_core_state(&board.record) == 4);
    expect("the end of busy asks", dfu_core_elapse(&config, &board.record, board.pending, sizeof board.pending, board.flash, board.size,
                                                     1) == DFU_WRITE_PENDING);
    expect("asked", handle(0xa1, 3, 0, 6, "") == DFU_BUSY && reset(&board) == DFU_BUSY && pass(&board, 1, &well) == DFU_BUSY
                        && dfu_core_would_stall(&config, &board.record, board.size, setup) == DFU_BUSY
                        && dfu_core_too_long(&config, &board.record, long_one) == DFU_BUSY);
    expect("it closes the gate only where it is open", board.flash[96] != 0xa5);
    write_is("the whole unit", 128, 16, 'a', 0);
    expect("written", dfu_core_state(&board.record) == 3 && board.record.held_length == 4);
    expect("GETSTATUS", handle(0xa1, 3, 0, 6, "") == 6 && board.out[4] == 5);
    expect("no more", handle(0x21, 1, 1, 0, "") == 0 && dfu_core_state(&board.record) == 6);
    expect("GETSTATUS asks", handle(0xa1, 3, 0, 6, "") == DFU_WRITE_PENDING);
    write_is("what was held back", 144, 16, 'q', DFU_WRITE_PENDING);
    write_is("the header", 112, 16, 1, DFU_WRITE_PENDING);
    expect("asked once more", next(&ask) == 0 && ask.at == 96 && next(&ask) == 0 && ask.at == 96);
    write_is("the gate", 96, 16, 0xa5, 6);
    expect("installed", board.out[0] == 0 && board.out[4] == 2 && board.record.work == 0);
    struct dfu_place place;
    expect("image", dfu_core_image(&config, board.flash, board.size, &place) == 0 && place.at == 128 && place.length == 20);
    expect("UPLOAD", handle(0xa1, 2, 0, 20, "") == 20 && memcmp(board.out, "abcdefghijklmnopqrst", 20) == 0);
    expect("the end", handle(0xa1, 2, 1, 20, "") == 0 && dfu_core_state(&board.record) == 2);
}

/* Checks the refusals of the calls, in their order. */
static void refusals(void) {
    struct dfu_config other = config, three = config, large = config, odd = config, sectors = config, huge = config;
    struct dfu_record device = board.record;
    struct dfu_place place;
    uint8_t setup[8] = {0xa1, 3, 0, 0, 0, 0, 6, 0}, out[20], none[192] = {0};
    other.version++;
    three.unit = 3;
    large.unit = 64;
    odd.sector = 100;
    sectors.sector = 256;
    huge.sector = 262400;
    expect("format", dfu_memory_format(&three, none, sizeof none, none, 0) == DFU_NO_CONFIG
                         && dfu_memory_format(&odd, none, sizeof none, none, 0) == DFU_NO_CONFIG
                         && dfu_memory_format(&config, none, 66, none, 0) == DFU_WRONG_SIZE
                         && dfu_memory_format(&config, none, sizeof none, none, 65) == DFU_TOO_LARGE && none[0] == 0);
    expect("power on", dfu_core_power_on(&other, &device, none, 192) == DFU_NO_CONFIG
                           && dfu_core_power_on(&three, &device, none, 192) == DFU_NO_CONFIG
                           && dfu_core_power_on(&odd, &device, none, 192) == DFU_NO_CONFIG
                           && dfu_core_power_on(&sectors, &device, none, 192) == DFU_NO_MEDIUM
                           && dfu_core_begin(&odd, &device, none, 192) == DFU_NO_CONFIG
                           && dfu_core_begin(&config, &device, none, 192) == DFU_NO_MEDIUM
                           && dfu_core_power_on(&config, &device, none, 192) == DFU_NO_MEDIUM);
    expect("image", dfu_core_image(&three, none, 192, &place) == DFU_NO_CONFIG
                        && dfu_core_image(&huge, none, 192, &place) == DFU_NO_CONFIG
                        && (huge.sector = 262144, dfu_core_image(&huge, none, 192, &place) == DFU_NO_MEDIUM)
                        && dfu_core_image(&large, none, 192, &place) == DFU_NO_MEDIUM);
#define HANDLE(config, device, most, flash, room) \
    dfu_core_handle(config, device, board.pending, most, flash, 192, setup, (const uint8_t *)"", 0, out, room)
    expect("no room", HANDLE(&other, &device, 0, none, 19) == DFU_NO_ROOM);
    expect("no config", HANDLE(&other, &device, 0, none, 20) == DFU_NO_CONFIG);
    expect("no block", HANDLE(&config, &device, 35, none, 20) == DFU_NO_BLOCK && HANDLE(&large, &device, 83, none, 20) == DFU_NO_BLOCK);
    expect("no medium", HANDLE(&config, &device, 36, none, 20) == DFU_NO_MEDIUM);
    expect("another unit", HANDLE(&large, &device, 84, board.flash, 20) == DFU_NO_MEDIUM);
    expect("no unit", HANDLE(&three, &device, 36, board.flash, 20) == DFU_NO_CONFIG);
    expect("no sectors", HANDLE(&odd, &device, 35, none, 20) == DFU_NO_CONFIG && HANDLE(&odd, &device, 36, none, 19) == DFU_NO_ROOM);
    expect("other sectors", HANDLE(&sectors, &device, 36, board.flash, 20) == DFU_NO_MEDIUM);
    device = board.record, device.held_length = 257;
    expect("held", HANDLE(&config, &device, 36, none, 20) == DFU_NO_DEVICE);
    device = board.record, device.length = 21;
    expect("length", HANDLE(&config, &device, 36, none, 20) == DFU_NO_DEVICE);
    device = board.record, device.work = 4;
    expect("work", HANDLE(&config, &device, 36, none, 20) == DFU_NO_DEVICE);
    device.work = 3;
    expect("a format is due", HANDLE(&other, &device, 0, none, 20) == DFU_BUSY);
    device = board.record, device.work = 1, device.close = 2;
    expect("close", HANDLE(&config, &device, 36, none, 20) == DFU_NO_DEVICE);
    device = board.record, device.work = 2, device.asked = 65537;
    expect("asked", HANDLE(&config, &device, 36, none, 20) == DFU_NO_DEVICE);
    device.asked = 65536;
    expect("work is due", HANDLE(&config, &device, 36, none, 20) == DFU_BUSY);
    device = board.record, device.version++;
    expect("version", HANDLE(&config, &device, 36, none, 20) == DFU_NO_DEVICE);
    device = board.record, device.mode = 6, device.first = 4;
    expect("no device of this flash", HANDLE(&config, &device, 36, board.flash, 20) == DFU_NO_DEVICE);
    expect("took", dfu_core_took(&other, &device, board.pending, 0, none, 192, 0, out, 5) == DFU_NO_ROOM
                       && dfu_core_took(&other, &device, board.pending, 0, none, 192, 0, out, 6) == DFU_NO_CONFIG
                       && dfu_core_took(&config, &device, board.pending, 0, none, 192, 0, out, 6) == DFU_NO_BLOCK);
}

/* With a garbled record no write lies in the active slot. */
static void no_write_outside(void) {
    struct dfu_ask ask;
    struct dfu_record device = board.record;
    board.record.work = 2, board.record.done = 0;
    board.record.spare = 96;
    expect("the active slot", next(&ask) == DFU_NO_DEVICE);
    board.record.spare = 0;
    expect("the spare slot", next(&ask) == 0 && ask.at < 96);
    board.record = device;
}

/* Checks that each call that compares the record with the flash returns `number`, and changes nothing. */
static void noted(const char *what, int32_t number) {
    struct dfu_record before = board.record;
    expect(what, handle(0xa1, 3, 0, 6, "") == number && pass(&board, 1, &well) == number && reset(&board) == number);
    expect(what, memcmp(&board.record, &before, sizeof before) == 0);
}

/* The record holds the active slot and its header. A request reads no image, but detects each change of slot and header. */
static void the_note(void) {
    struct dfu_record kept = board.record;
    expect("the new image is noted", kept.slot == 1 && memcmp(kept.header, board.flash + 112, 16) == 0);
    board.flash[128] ^= 1;
    expect("an image that fades is not read", handle(0xa1, 3, 0, 6, "") == 6);
    expect("power-on reads it", dfu_core_power_on(&config, &board.record, board.flash, board.size) == 0 && board.record.slot == 0);
    board.flash[128] ^= 1, board.record = kept;
    board.flash[120] ^= 1;
    noted("another header", DFU_NO_MEDIUM);
    board.flash[120] ^= 1, board.flash[96] = 0;
    noted("a closed gate", DFU_NO_MEDIUM);
    board.flash[96] = 0xa5, board.record.slot = 0;
    noted("the other slot", DFU_NO_MEDIUM);
    board.record.slot = 2;
    noted("no slot", DFU_NO_DEVICE);
    board.record.slot = 1, board.record.header[0]++;
    noted("another note", DFU_NO_MEDIUM);
    board.record = kept;
    expect("the note as it was", handle(0xa1, 3, 0, 6, "") == 6);
}

int main(void) {
    a_download();
    refusals();
    no_write_outside();
    the_note();
    return wrong;
}
