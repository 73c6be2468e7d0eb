/* Runs sessions of the host library against the device library: downloads with and without lost answers, downloads to a device that leaves
 * by itself, uploads into buffers of several sizes, refusals, and aborted sessions. */
#include <stdio.h>
#include <stdlib.h>
#include <string.h>

#include "dfu_host.h"
#include "memory.h"

static const struct dfu_config config = {
    .version = DFU_VERSION, .device = 0x0100, .product = 1, .vendor = 0x1209, .detach_ms = 255, .transfer = 8,
    .attributes = 7, .busy_ms = 5, .manifest_ms = 10, .least = 1, .unit = 1,
};
static const uint8_t descriptor[9] = {9, 0x21, 7, 255, 0, 8, 0, 0x10, 1};
static const struct dfu_ids ids = {0x0100, 1, 0x1209};
static const uint8_t ones[20] = {255, 255, 255, 255, 255, 255, 255, 255, 255, 255, 0, 1, 'U', 'F', 'D', 16, 113, 200, 81, 12};
static uint8_t pending[DFU_BLOCK_SIZE(8, 1)], medium[DFU_MEDIUM_SIZE(1, 0, 1024)], buffer[64], answer[64];
static const struct dfu_driver driver = DFU_MEMORY_DRIVER(medium);
static struct dfu_device device = {.config = &config, .flash = medium, .size = sizeof medium, .block = pending, .most = sizeof pending,
                                   .driver = &driver};
static int failed;

static void is(const char *what, long got, long wanted) {
    if (got != wanted) {
        printf("%s: %ld, not %ld\n", what, got, wanted);
        failed++;
    }
}

static void start(const char *image, size_t length) {
    is("format", dfu_device_format(&device, (const uint8_t *)image, length), 0);
    is("power on", dfu_device_power_on(&device), 0);
}

/* Carries out an action of the session. Returns its outcome, with the number of answered bytes in `sent`. */
static uint32_t act(const struct dfu_action *a, int32_t *sent) {
    *sent = 0;
    if (a->what == DFU_RESET) {
        dfu_device_usb_reset(&device);
        return DFU_SEEN_RESET;
    }
    if (a->what == DFU_WAIT) {
        elapse_in_memory(&device, a->value);
        return DFU_SEEN_WAIT;
    }
    *sent = handle_in_memory(&device, a->setup, ones + a->from, a->length,
                              answer, sizeof answer);
    return *sent < 0 ? DFU_SEEN_STALL : a->setup[0] & 0x80 ? DFU_SEEN_BYTES : DFU_SEEN_ACK;
}

/* Runs a session to its end with a device that resets itself in the first wait after the close. Returns the report. */
static uint32_t run_left(struct dfu_session *s) {
    struct dfu_action a;
    int closed = 0;
    while (dfu_host_next(s, ones, 4, &a) == 0 && a.what != DFU_DONE) {
        int32_t sent;
        uint32_t seen = act(&a, &sent);
        if (seen == DFU_SEEN_ACK && a.setup[1] == 1 && a.length == 0)
            closed = 1;
        if (seen == DFU_SEEN_WAIT && closed == 1) {
            dfu_device_usb_reset(&device);
            seen = DFU_SEEN_LEFT;
            closed = 2;
        }
        is("take", dfu_host_take(s, ones, 4, buffer, 0, seen, answer, sent > 0 ? (size_t)sent : 0), 0);
    }
    is("left", closed, 2);
    return a.value;
}

/* Runs a session to its end; one answer is lost, and the session is aborted at one action. Returns the report. A session has at most 1,000
 * actions. */
static uint32_t run(struct dfu_session *s, size_t payload, size_t room, int lost, int given_up) {
    struct dfu_action a;
    for (int step = 0; dfu_host_next(s, ones, payload, &a) == 0 && a.what != DFU_DONE; step++) {
        if (step == 1001) {
            is("steps", step, 1000);
            exit(1);
        }
        if (step == given_up) {
            is("abort", dfu_host_abort(s, ones, payload), 0);
            continue;
        }
        int32_t sent;
        uint32_t seen = act(&a, &sent);
        if (step == lost && a.what == DFU_SEND)
            seen = DFU_SEEN_NOTHING;
        is("take", dfu_host_take(s, ones, payload, buffer, room, seen, answer, sent > 0 ? (size_t)sent : 0), 0);
    }
    return a.value;
}

static int has(const uint8_t *image, size_t length) {
    struct dfu_place place;
    return dfu_device_image(&device, &place) == 0 && place.length == length && !memcmp(medium + place.at, image, length);
}

static uint32_t upload(size_t room) {
    struct dfu_session s;
    start("0123456789abcdef!", 17);
    is("upload", dfu_host_upload(&s, descriptor, 9, 1000, 0), 0);
    memset(buffer, 0, sizeof buffer);
    uint32_t report = run(&s, 0, room, -1, -1);
    if (report == DFU_UPLOADED)
        is("kept", s.kept == 17 && !memcmp(buffer, "0123456789abcdef!", 17), 1);
    for (size_t at = room; at < sizeof buffer; at++)
        is("beyond", buffer[at], 0);
    return report;
}

int main(void) {
    struct dfu_session s, old;
    struct dfu_action a;
    struct dfu_file f;
    is("file", dfu_host_file(ones, 20, &f), 0);
    is("payload", (long)f.payload, 4);
    is("crc", f.crc, 0x0c51c871);
    is("suffix", f.suffix, 16);
    is("vendor", f.vendor, 0xffff);
    is("too short", dfu_host_file(ones, 15, &f), DFU_FILE_TOO_SHORT);
    is("no signature", dfu_host_file(ones, 19, &f), DFU_FILE_NO_SIGNATURE);
    is("bad crc", dfu_host_file(ones + 1, 19, &f), DFU_FILE_BAD_CRC);
    for (int lost = -1; lost < 22; lost++) {
        start("\x11", 1);
        is("download", dfu_host_download(&s, ones, 20, descriptor, 9, &ids, 1000, 0), 0);
        is("installed", run(&s, 4, 0, lost, -1), DFU_INSTALLED);
        is("image", has(ones, 4), 1);
        start("\x11", 1);
        is("verified", dfu_host_verified(&s, ones, 20, descriptor, 9, &ids, 1000, 0), 0);
        is("is verified", run(&s, 4, 0, lost, -1), DFU_VERIFIED);
        is("image", has(ones, 4), 1);
    }
    for (int step = 0; step < 12; step++) {
        start("\x11", 1);
        dfu_host_download(&s, ones, 20, descriptor, 9, &ids, 1000, 0);
        is("aborted", run(&s, 4, 0, -1, step), DFU_ABORTED);
    }
    start("\x11", 1);
    is("download", dfu_host_download(&s, ones, 20, descriptor, 9, &ids, 1000, 0), 0);
    is("unconfirmed", run_left(&s), DFU_UNCONFIRMED);
    is("image", has(ones, 4), 1);
    start("\x11", 1);
    is("verified", dfu_host_verified(&s, ones, 20, descriptor, 9, &ids, 1000, 0), 0);
    is("is compared", run_left(&s), DFU_VERIFIED);
    is("image", has(ones, 4), 1);
    for (size_t room = 0; room <= sizeof buffer; room++)
        is("room", upload(room), room < 17 ? DFU_NO_MEMORY : DFU_UPLOADED);
    is("descriptor", dfu_host_download(&s, ones, 20, descriptor, 8, &ids, 1, 0), DFU_SHORT);
    is("no bytes", dfu_host_upload(&s, descriptor, 0, 1, 0), DFU_SHORT);
    const uint8_t mute[7] = {7, 0x21, 4, 255, 0, 8, 0}, narrow[7] = {7, 0x21, 3, 255, 0, 0, 0};
    is("no download", dfu_host_download(&s, ones, 20, mute, 7, &ids, 1, 0), DFU_CANNOT_DOWNLOAD);
    is("no upload", dfu_host_upload(&s, mute, 7, 1, 0), DFU_CANNOT_UPLOAD);
    is("narrow", dfu_host_upload(&s, narrow, 7, 1, 0), DFU_BAD_DESCRIPTOR);
    dfu_host_download(&s, ones, 20, descriptor, 9, &ids, 1000, 0);
    is("version", dfu_host_version(), DFU_VERSION);
    is("its version", s.version, DFU_VERSION);
    old = s;
    is("no seen", dfu_host_take(&s, ones, 4, buffer, 0, 8, answer, 0), DFU_NO_SEEN);
    is("no payload", dfu_host_take(&s, ones, 0, buffer, 0, DFU_SEEN_ACK, answer, 0), DFU_NO_SESSION);
    is("as it was", memcmp(&s, &old, sizeof s), 0);
    s.version++;
    old = s;
    is("next of another version", dfu_host_next(&s, ones, 4, &a), DFU_NO_SESSION);
    is("take of another version", dfu_host_take(&s, ones, 4, buffer, 0, DFU_SEEN_ACK, answer, 0), DFU_NO_SESSION);
    is("abort of another version", dfu_host_abort(&s, ones, 4), DFU_NO_SESSION);
    is("as it was", memcmp(&s, &old, sizeof s), 0);
    s.version = DFU_VERSION;
    s.goal = 9;
    is("no goal", dfu_host_next(&s, ones, 4, &a), DFU_NO_SESSION);
    uint8_t name[16];
    is("name", dfu_host_name(DFU_GAVE_UP, name, 16) == 7 && !memcmp(name, "gave-up", 7), 1);
    is("no name", dfu_host_name(12, name, 16), 0);
    return failed != 0;
}
