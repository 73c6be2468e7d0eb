/* Tests rows of the device table from C: the host's request, the device's answer, and the state after it. */
#include <stdio.h>
#include <string.h>

#include "memory.h"

static struct dfu_config config = {DFU_VERSION, 0x0100, 1, 0x1209, 255, 8, 7, 0, 5, 10, 1, 1, 0, 0, 0};
static uint8_t medium[DFU_MEDIUM_SIZE(1, 0, 64)], pending[DFU_BLOCK_SIZE(8, 16)], out[16];
static const struct dfu_driver driver = DFU_MEMORY_DRIVER(medium);
static struct dfu_device device = {.config = &config, .flash = medium, .size = sizeof medium, .block = pending, .most = sizeof pending,
                                   .driver = &driver};
static int wrong;

static void expect(const char *what, int holds) {
    if (!holds) {
        printf("rows: %s\n", what);
        wrong = 1;
    }
}

/* Makes a transfer. Checks the result, the bytes of the answer, and the state after it. */
static void ask(const char *what, const char *setup, const void *body, size_t length, int32_t number, const char *bytes, int32_t state) {
    int32_t n = handle_in_memory(&device, (const uint8_t *)setup, body,
                                  length, out, sizeof out);
    expect(what, n == number && (n <= 0 || memcmp(out, bytes, (size_t)n) == 0) && dfu_device_state(&device) == state);
}

static void image_is(const char *what, const char *bytes, uint32_t length) {
    struct dfu_place place = {0, 0};
    expect(what, dfu_device_image(&device, &place) == 0 && place.length == length
        && memcmp(medium + place.at, bytes, length) == 0);
}

#define STATUS "\xa1\x03\0\0\0\0\x06\0"

static void download(uint8_t attributes) {
    int tolerant = attributes & 4;
    config.attributes = attributes;
    expect("format", dfu_device_format(&device, (const uint8_t *)"\x11\x22", 2) == 0);
    expect("power on", dfu_device_power_on(&device) == 0 && dfu_device_state(&device) == 0);
    image_is("old image", "\x11\x22", 2);
    ask("DETACH", "\x21\0\xe8\x03\0\0\0\0", "", 0, 0, "", 1);
    expect("bus reset", dfu_device_usb_reset(&device) == 0 && dfu_device_state(&device) == 2);
    ask("GETSTATUS", STATUS, "", 0, 6, "\0\0\0\0\x02\0", 2);
    ask("a body that is cut short", "\x21\x01\0\0\0\0\x04\0", "\xff\xff", 2, DFU_STALL, "", 2);
    ask("DNLOAD", "\x21\x01\0\0\0\0\x04\0", "\xaa\xbb\xcc\xdd", 4, 0, "", 3);
    ask("poll", STATUS, "", 0, 6, "\0\x05\0\0\x04\0", 4);
    expect("busy", elapse_in_memory(&device, 5) == 0 && dfu_device_state(&device) == 3);
    ask("written", STATUS, "", 0, 6, "\0\0\0\0\x05\0", 5);
    ask("close", "\x21\x01\x01\0\0\0\0\0", "", 0, 0, "", 6);
    ask("manifest", STATUS, "", 0, 6, "\0\x0a\0\0\x07\0", 7);
    image_is("not yet", "\x11\x22", 2);
    expect("manifested", elapse_in_memory(&device, 10) == 0);
    image_is("new image", "\xaa\xbb\xcc\xdd", 4);
    if (tolerant) {
        ask("complete", STATUS, "", 0, 6, "\0\0\0\0\x02\0", 2);
        ask("UPLOAD", "\xa1\x02\0\0\0\0\x08\0", "", 0, 4, "\xaa\xbb\xcc\xdd", 2);
        ask("an unknown request", "\x21\x07\0\0\0\0\0\0", "", 0, DFU_STALL, "", 10);
        expect("code", dfu_device_code(&device) == 15);
        ask("CLRSTATUS", "\x21\x04\0\0\0\0\0\0", "", 0, 0, "", 2);
    } else {
        ask("waits for a reset", STATUS, "", 0, DFU_STALL, "", 8);
    }
    expect("second reset", dfu_device_usb_reset(&device) == 0 && dfu_device_state(&device) == 0);
}

static void refusals(void) {
    static uint8_t before[sizeof medium], none[100], zeros[100];
    struct dfu_device other = device;
    struct dfu_place place = {7, 7};
    other.flash = none, other.size = sizeof none, other.most = 8;
    config.transfer = 0;
    ask("NO_CONFIG", STATUS, "", 0, DFU_NO_CONFIG, "", 0);
    config.transfer = 17;
    ask("NO_ROOM", STATUS, "", 0, DFU_NO_ROOM, "", 0);
    config.transfer = 8;
    config.version = DFU_VERSION + 1;
    ask("NO_CONFIG: another version", STATUS, "", 0, DFU_NO_CONFIG, "", 0);
    expect("NO_CONFIG before all", dfu_device_power_on(&other) == DFU_NO_CONFIG && elapse_in_memory(&other, 1) == DFU_NO_CONFIG);
    config.version = DFU_VERSION;
    expect("NO_BLOCK", elapse_in_memory(&other, 1) == DFU_NO_BLOCK && dfu_device_usb_reset(&other) == DFU_NO_BLOCK
        && dfu_device_handle(&other, none, none, out, sizeof out) == DFU_NO_BLOCK);
    other.most = 9;
    expect("NO_MEDIUM", elapse_in_memory(&other, 1) == DFU_NO_MEDIUM && dfu_device_power_on(&other) == DFU_NO_MEDIUM
        && dfu_device_image(&other, &place) == DFU_NO_MEDIUM && place.at == 7 && place.length == 7);
    expect("NO_MEDIUM: unchanged", memcmp(none, zeros, sizeof none) == 0);
    memcpy(before, medium, sizeof medium);
    other = device;
    expect("image", dfu_device_image(&device, &place) == 0 && memcmp(before, medium, sizeof medium) == 0);
    other.record.mode = 6, other.record.first = 9;
    expect("NO_DEVICE", dfu_device_usb_reset(&other) == DFU_NO_DEVICE && other.record.mode == 6 && other.record.first == 9);
    other.record.mode = 0, other.record.version = DFU_VERSION - 1;
    expect("another version", dfu_device_usb_reset(&other) == DFU_NO_DEVICE && dfu_device_state(&other) == DFU_NO_DEVICE
        && dfu_device_answered(&other) == DFU_NO_DEVICE && dfu_device_work(&other) == DFU_NO_DEVICE
        && dfu_device_serve(&other, (const uint8_t *)STATUS, none, out, sizeof out) == DFU_NO_DEVICE
        && dfu_device_reset(&other) == DFU_NO_DEVICE);
    other.record = device.record, other.record.mode = 3, other.record.first = 0, other.record.length = 9;
    expect("a block that is longer than any may be", dfu_device_usb_reset(&other) == DFU_NO_DEVICE
        && (other.record.length = 8, dfu_device_usb_reset(&other) == 0));
    other.record.mode = 13;
    expect("no mode", dfu_device_state(&other) == DFU_NO_DEVICE && dfu_device_code(&other) == DFU_NO_DEVICE);
    other.size = 65;
    expect("WRONG_SIZE", dfu_device_format(&other, none, 1) == DFU_WRONG_SIZE);
    expect("TOO_LARGE", dfu_device_format(&device, none, 65) == DFU_TOO_LARGE);
    other = device, other.driver = NULL;
    expect("no driver", dfu_device_format(&other, none, 1) == DFU_WRITE_PENDING && dfu_device_settle(&other, DFU_WRITE_PENDING, out, 6) == DFU_WRITE_PENDING);
    expect("medium unchanged", memcmp(before, medium, sizeof medium) == 0);
}

/* Tests units of 16 bytes: bytes that don't fill a unit are held back, and a unit is written as soon as it is full. The rest is written,
 * padded with zeros, when the image becomes active. */
static void units(void) {
    uint8_t none[4] = {0};
    const uint8_t *spare = medium + 96 + 32;
    struct dfu_place place;
    config.unit = 16, config.attributes = 7;
    expect("format", dfu_device_format(&device, (const uint8_t *)"\x11\x22", 2) == 0);
    memset(medium + 96, 0xee, 96);
    expect("begin", dfu_device_begin(&device) == 0);
    ask("DNLOAD of 8", "\x21\x01\0\0\0\0\x08\0", "abcdefgh", 8, 0, "", 3);
    ask("poll", STATUS, "", 0, 6, "\0\x05\0\0\x04\0", 4);
    expect("busy", elapse_in_memory(&device, 5) == 0);
    expect("8 bytes are held back", device.record.held_length == 8 && memcmp(pending + 8, "abcdefgh", 8) == 0 && spare[0] == 0xee);
    ask("written", STATUS, "", 0, 6, "\0\0\0\0\x05\0", 5);
    ask("DNLOAD of 4", "\x21\x01\x01\0\0\0\x04\0", "ijkl", 4, 0, "", 3);
    ask("poll", STATUS, "", 0, 6, "\0\x05\0\0\x04\0", 4);
    expect("busy", elapse_in_memory(&device, 5) == 0);
    ask("written", STATUS, "", 0, 6, "\0\0\0\0\x05\0", 5);
    ask("DNLOAD of 8", "\x21\x01\x02\0\0\0\x08\0", "mnopqrst", 8, 0, "", 3);
    ask("poll", STATUS, "", 0, 6, "\0\x05\0\0\x04\0", 4);
    expect("busy", elapse_in_memory(&device, 5) == 0);
    expect("a unit is written, and 4 bytes are held back", device.record.held_length == 4 && memcmp(pending + 8, "qrst", 4) == 0
        && memcmp(spare, "abcdefghijklmnop\xee", 17) == 0);
    ask("written", STATUS, "", 0, 6, "\0\0\0\0\x05\0", 5);
    ask("close", "\x21\x01\x03\0\0\0\0\0", "", 0, 0, "", 6);
    ask("manifest", STATUS, "", 0, 6, "\0\x0a\0\0\x07\0", 7);
    expect("manifested", elapse_in_memory(&device, 10) == 0);
    image_is("20 bytes", "abcdefghijklmnopqrst", 20);
    expect("whole units", device.record.held_length == 0 && memcmp(spare + 16, "qrst\0\0\0\0\0\0\0\0\0\0\0\0\xee", 17) == 0);
    config.unit = 256;
    expect("gates of 256", dfu_device_format(&device, none, 1) == DFU_WRONG_SIZE
        && dfu_device_image(&device, &place) == DFU_NO_MEDIUM);
    config.unit = 32;
    expect("no unit", dfu_device_format(&device, none, 1) == DFU_NO_CONFIG
        && dfu_device_image(&device, &place) == DFU_NO_CONFIG
        && dfu_device_power_on(&device) == DFU_NO_CONFIG
        && dfu_device_due(&device) == DFU_NO_CONFIG);
}

/* Writes all bytes, but reports a failure. */
static int fails(void *own, uint32_t at, const uint8_t *bytes, uint32_t length) {
    dfu_memory_program(own, at, bytes, length);
    return -7;
}

static void failures(void) {
    static const struct dfu_driver failing = {medium, dfu_memory_erase, fails};
    config.unit = 1, config.attributes = 7;
    device.driver = &failing;
    expect("a format fails", dfu_device_format(&device, out, 1) == DFU_NOT_WRITTEN);
    device.driver = &driver;
    expect("format", dfu_device_format(&device, (const uint8_t *)"\x11\x22", 2) == 0 && dfu_device_begin(&device) == 0);
    device.driver = &failing;
    ask("DNLOAD", "\x21\x01\0\0\0\0\x04\0", "\xaa\xbb\xcc\xdd", 4, 0, "", 3);
    ask("poll", STATUS, "", 0, 6, "\0\x05\0\0\x04\0", 4);
    expect("a block fails", dfu_device_work(&device) == 0 && dfu_device_code(&device) == DFU_STATUS_ERR_WRITE);
    image_is("old image", "\x11\x22", 2);
    device.driver = &driver;
    ask("CLRSTATUS", "\x21\x04\0\0\0\0\0\0", "", 0, 0, "", 2);
    ask("DNLOAD", "\x21\x01\0\0\0\0\x04\0", "\xaa\xbb\xcc\xdd", 4, 0, "", 3);
    ask("poll", STATUS, "", 0, 6, "\0\x05\0\0\x04\0", 4);
    expect("the work", dfu_device_work(&device) == 0);
    ask("written", STATUS, "", 0, 6, "\0\0\0\0\x05\0", 5);
    ask("close", "\x21\x01\x01\0\0\0\0\0", "", 0, 0, "", 6);
    ask("manifest", STATUS, "", 0, 6, "\0\x0a\0\0\x07\0", 7);
    device.driver = &failing;
    expect("putting it in place fails", dfu_device_work(&device) == 0 && dfu_device_code(&device) == DFU_STATUS_ERR_PROG);
    image_is("old image", "\x11\x22", 2);
    device.driver = &driver;
}

int main(void) {
    download(7);
    refusals();
    failures();
    download(3);
    units();
    return wrong;
}
