/* Tests calls of a program that the rows don't cover: would_stall and closes, compared with what dfu_device_handle then does in each mode;
 * is_blank, for each byte of the flash; the time until the state changes; a body that is too long; the functional descriptor; a start in
 * dfuIDLE; a board without an application; and the version. */
#include <stdio.h>
#include <string.h>

#include "memory.h"

#define MODES 13

static struct dfu_config config = {DFU_VERSION, 0x0100, 1, 0x1209, 255, 8, 7, 0, 5, 10, 4, 1, 0, 0, 0};
static uint8_t pending[DFU_BLOCK_SIZE(8, 1)], medium[DFU_MEDIUM_SIZE(1, 0, 16)], mediums[MODES][sizeof medium], out[16];
static const struct dfu_driver driver = DFU_MEMORY_DRIVER(medium);
static struct dfu_device device = {.config = &config, .flash = medium, .size = sizeof medium, .block = pending, .most = sizeof pending,
                                   .driver = &driver};
static struct dfu_record stations[MODES];
static int wrong, stalls, others, closed;

static void expect(const char *what, int holds) {
    if (!holds) {
        printf("questions: %s\n", what);
        wrong = 1;
    }
}

static int32_t ask(uint8_t kind, uint8_t request, uint16_t value, uint16_t length) {
    static const uint8_t body[64] = {1, 2, 3};
    uint8_t setup[8] = {kind, request, (uint8_t)value, (uint8_t)(value >> 8), 0, 0, (uint8_t)length, (uint8_t)(length >> 8)};
    return handle_in_memory(&device, setup, body, kind == 0x21 ? length : 0,
                             out, sizeof out);
}

static void pass(uint32_t ms) {
    expect("time", elapse_in_memory(&device, ms) == 0);
}

/* Keeps the current state of the device, by its mode. */
static void keep(void) {
    stations[device.record.mode] = device.record;
    memcpy(mediums[device.record.mode], medium, sizeof medium);
}

/* Visits every mode. */
static void visit(void) {
    dfu_device_format(&device, (const uint8_t *)"0123456789", 10);
    dfu_device_power_on(&device), keep();
    ask(0x21, 0, 100, 0), keep();
    dfu_device_usb_reset(&device), keep();
    ask(0xa1, 2, 0, 8), keep();
    ask(0x21, 6, 0, 0);
    ask(0x21, 1, 0, 8), keep();
    ask(0xa1, 3, 0, 6), keep();
    pass(5), keep();
    ask(0xa1, 3, 0, 6), keep();
    ask(0x21, 1, 1, 0), keep();
    ask(0xa1, 3, 0, 6), keep();
    pass(10), keep();
    ask(0x21, 7, 0, 0), keep();
    device.record = stations[2];
    device.record.mode = 10, keep();
}

/* Compares would_stall with handle for a setup in a kept state. A setup for another interface must change nothing. */
static void compare(int station, uint8_t kind, uint8_t request, uint16_t value, uint16_t index, uint16_t length) {
    static const uint8_t body[64] = {9, 8, 7};
    uint8_t setup[8] = {kind, request, (uint8_t)value, (uint8_t)(value >> 8), (uint8_t)index, (uint8_t)(index >> 8), (uint8_t)length, 0};
    device.record = stations[station];
    memcpy(medium, mediums[station], sizeof medium);
    int32_t will = dfu_device_would_stall(&device, setup), closes = dfu_device_closes(&device, setup);
    int32_t did = handle_in_memory(&device, setup, body,
                                    kind == 0x21 ? length : 0, out, sizeof out);
    if (will != (did == DFU_STALL)) {
        printf("questions: mode %d, %02x %u, value %u, length %u: %d, and then %d\n", station, kind, request, value, length, (int)will,
            (int)did);
        wrong = 1;
    }
    expect("closes", closes == (station == 6 && kind == 0x21 && did == 0 && device.record.mode == 7));
    closed += closes;
    if (index != config.interface_number)
        expect("another interface", will == 1 && memcmp(&device.record, &stations[station], sizeof device.record) == 0);
    *(will ? &stalls : &others) += 1;
}

/* For a body that is too long, compares too_long with handle; for any other body too_long must return DFU_NOT_LONG. */
static void too_long(int station, uint8_t kind, uint8_t request, uint8_t index, uint16_t length) {
    static const uint8_t body[64] = {9, 8, 7};
    uint8_t setup[8] = {kind, request, 0, 0, index, 0, (uint8_t)length, 0};
    device.record = stations[station];
    struct dfu_device other = device;
    memcpy(medium, mediums[station], sizeof medium);
    int32_t result = dfu_device_too_long(&other, setup);
    if (kind == 0xa1 || length <= config.transfer)
        expect("not long", result == DFU_NOT_LONG && memcmp(&other.record, &device.record, sizeof other.record) == 0);
    else
        expect("too long", result == DFU_STALL
            && handle_in_memory(&device, setup, body, length, out, sizeof out) == DFU_STALL
            && (index == config.interface_number || memcmp(&other.record, &stations[station], sizeof other.record) == 0)
            && dfu_device_state(&other) == dfu_device_state(&device) && dfu_device_code(&other) == dfu_device_code(&device));
}

/* Checks the time until the state changes: one millisecond less leaves the state, and the full time changes it. Only three stations
 * have such a time; time doesn't change the state of the others. */
static void due(int station) {
    int32_t ms = dfu_core_due(&config, &stations[station]);
    for (int32_t passed = ms - 1; ms > 0 && passed <= ms; passed++) {
        device.record = stations[station];
        memcpy(medium, mediums[station], sizeof medium);
        pass((uint32_t)passed);
        expect("due", (dfu_device_state(&device) != dfu_core_state(&stations[station])) == (passed == ms));
    }
    expect("counts", (ms > 0) == (station == 1 || station == 5 || station == 9));
    device.record = stations[station];
    memcpy(medium, mediums[station], sizeof medium);
    pass(1000000);
    expect("counts no time", ms > 0 || dfu_device_state(&device) == dfu_core_state(&stations[station]));
}

static void all(void) {
    static const uint16_t lengths[] = {0, 1, 6, 8, 9, 63};
    for (int station = 0; station < MODES; station++) {
        for (unsigned request = 0; request < 9; request++)
            for (unsigned at = 0; at < 6; at++)
                for (uint16_t value = 0; value < 3; value++) {
                    compare(station, 0x21, (uint8_t)request, value, config.interface_number, lengths[at]);
                    compare(station, 0xa1, (uint8_t)request, value, config.interface_number, lengths[at]);
                    compare(station, 0x21, (uint8_t)request, value, 1, lengths[at]);
                    compare(station, 0xa1, (uint8_t)request, value, config.interface_number == 0 ? 256 : 0, lengths[at]);
                    compare(station, 0x00, (uint8_t)request, value, config.interface_number, 0);
                }
        for (unsigned request = 0; request < 9; request++)
            for (unsigned at = 0; at < 6; at++) {
                too_long(station, 0x21, (uint8_t)request, config.interface_number, lengths[at]);
                too_long(station, 0x21, (uint8_t)request, 1, lengths[at]);
                too_long(station, 0xa1, (uint8_t)request, config.interface_number, lengths[at]);
            }
        due(station);
    }
}

/* A part is blank if every byte of its gates and headers is FFh, whatever its data holds. */
static void blank(uint32_t unit, uint32_t sector) {
    static uint8_t part[2 * (2 * 512 + 512)];
    const struct dfu_config other = {DFU_VERSION, 0x0100, 1, 0x1209, 255, 8, 7, 0, 0, 0, 1, unit, sector, 0, 0};
    const size_t front = 2 * DFU_GATE(unit, sector), size = 2 * (front + 512);
    memset(part, 0xff, sizeof part);
    expect("blank", dfu_core_is_blank(&other, part, size) == 1);
    for (size_t at = 0; at < size; at++)
        for (unsigned value = 0; value < 255; value += 51) {
            part[at] = (uint8_t)value;
            expect("by each byte", dfu_core_is_blank(&other, part, size) == (at % (size / 2) >= front));
            part[at] = 0xff;
        }
    expect("wrong size", dfu_core_is_blank(&other, part, size - 2) == (unit == 1 && sector == 0 ? 1 : DFU_WRONG_SIZE)
        && dfu_core_is_blank(&other, part, size - 1) == DFU_WRONG_SIZE && dfu_core_is_blank(&other, part, 2 * front) == DFU_WRONG_SIZE
        && dfu_core_is_blank(&other, part, 0) == DFU_WRONG_SIZE);
}

static void rest(void) {
    static const uint8_t descriptor[9] = {9, 0x21, 7, 255, 0, 8, 0, 0x10, 1}, setup[8] = {0x21, 1, 0, 0, 0, 0, 9, 0};
    struct dfu_config bad = config;
    struct dfu_place place;
    uint8_t bytes[9] = {0};
    expect("functional", dfu_device_functional(&config, bytes) == 9 && memcmp(bytes, descriptor, 9) == 0);
    bad.transfer = 0;
    memset(bytes, 7, 9);
    expect("no functional", dfu_device_functional(&bad, bytes) == DFU_NO_CONFIG && bytes[0] == 7 && bytes[8] == 7);
    device.config = &bad;
    expect("no config", dfu_device_would_stall(&device, setup) == DFU_NO_CONFIG && dfu_device_due(&device) == DFU_NO_CONFIG
        && dfu_device_too_long(&device, setup) == DFU_NO_CONFIG && dfu_device_begin(&device) == DFU_NO_CONFIG
        && dfu_device_closes(&device, setup) == DFU_NO_CONFIG && dfu_device_is_blank(&device) == DFU_NO_CONFIG);
    bad = config;
    bad.version = DFU_VERSION + 1;
    expect("another version", dfu_device_functional(&bad, bytes) == DFU_NO_CONFIG
        && dfu_device_would_stall(&device, setup) == DFU_NO_CONFIG && dfu_device_due(&device) == DFU_NO_CONFIG);
    device.config = &config;
    device.record.mode = 13;
    expect("no mode", dfu_device_would_stall(&device, setup) == DFU_NO_DEVICE
        && dfu_device_due(&device) == DFU_NO_DEVICE && dfu_device_too_long(&device, setup) == DFU_NO_DEVICE
        && dfu_device_closes(&device, setup) == DFU_NO_DEVICE);
    expect("begin", dfu_device_format(&device, setup, 0) == 0
        && dfu_device_begin(&device) == 0 && dfu_device_state(&device) == 2);
    expect("no application", dfu_device_image(&device, &place) == 0 && place.length == 0);
    expect("not blank", dfu_device_is_blank(&device) == 0);
    ask(0x21, 1, 0, 8), ask(0xa1, 3, 0, 6), pass(5), ask(0xa1, 3, 0, 6), ask(0x21, 1, 1, 0), ask(0xa1, 3, 0, 6), pass(10);
    expect("application", dfu_device_image(&device, &place) == 0 && place.length == 8);
    memset(medium, 0xff, sizeof medium);
    expect("no medium", dfu_device_begin(&device) == DFU_NO_MEDIUM && dfu_device_is_blank(&device) == 1);
    expect("version", dfu_core_version() == DFU_VERSION);
}

int main(void) {
    visit();
    for (config.attributes = 0; config.attributes < 16; config.attributes++) {
        config.interface_number = config.attributes & 1 ? 0 : 3;
        all();
    }
    config.attributes = 7, config.interface_number = 0;
    rest();
    blank(1, 0), blank(16, 0), blank(256, 0), blank(16, 256), blank(256, 512);
    printf("asked before the body: %d stalls, %d others, %d close a download; version " DFU_VERSION_TEXT "\n", stalls, others, closed);
    return wrong || stalls == 0 || others == 0 || closed == 0;
}
