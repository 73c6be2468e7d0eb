/* Tests cases that the other programs do not reach: images of more than 4,096 bytes, images and flash of wrong sizes, names, files with
 * every refusal, requests without a body, and NULL pointers where nothing is read or written. The headers forbid NULL, but no call may
 * crash, because the libraries replace it by another address. */
#include <stdio.h>
#include <stdlib.h>
#include <string.h>

#include "dfu_device_memory.h"
#include "dfu_host.h"

static const struct dfu_config config = {
    .version = DFU_VERSION, .device = 0x0100, .product = 1, .vendor = 0x1209, .detach_ms = 255, .transfer = 64,
    .attributes = 7, .busy_ms = 5, .manifest_ms = 10, .least = 1, .unit = 1,
};
static int failed;

static void is(const char *what, long got, long wanted) {
    if (got != wanted) {
        printf("%s: %ld, not %ld\n", what, got, wanted);
        failed++;
    }
}

/* Formats with images of many lengths, in units of each size, and with lengths that are too large. */
static void formats(void) {
    enum { SIZE = DFU_MEDIUM_SIZE(256, 0, 16384) };
    static uint8_t medium[SIZE], image[17000];
    struct dfu_config other = config;
    struct dfu_place place;
    struct dfu_record record;
    for (size_t at = 0; at < sizeof image; at++)
        image[at] = (uint8_t)(at * 7 + at / 251);
    for (uint32_t unit = 1; unit <= 256; unit *= unit == 1 ? 16 : 4) {
        other.unit = unit;
        for (size_t length = 0; length <= 16384; length += length < 4090 ? 409 : 1023) {
            memset(medium, 0, SIZE);
            is("format", dfu_memory_format(&other, medium, SIZE, image, length), 0);
            is("image", dfu_core_image(&other, medium, SIZE, &place), 0);
            is("its length", (long)place.length, (long)length);
            is("its bytes", memcmp(medium + place.at, image, length), 0);
        }
        is("too large", dfu_memory_format(&other, medium, SIZE, image, 17000), DFU_TOO_LARGE);
    }
    is("wrong size", dfu_memory_format(&config, medium, 63, image, 1), DFU_WRONG_SIZE);
    is("odd size", dfu_memory_format(&config, medium, SIZE - 1, image, 1), DFU_WRONG_SIZE);
    memset(medium, 0, SIZE);
    is("no image", dfu_core_image(&config, medium, SIZE, &place), DFU_NO_MEDIUM);
    is("no device", dfu_core_power_on(&config, &record, medium, SIZE), DFU_NO_MEDIUM);
    is("none to begin", dfu_core_begin(&config, &record, medium, SIZE), DFU_NO_MEDIUM);
    other.version++;
    is("another version", dfu_memory_format(&other, medium, SIZE, image, 1), DFU_NO_CONFIG);
    is("another version, image", dfu_core_image(&other, medium, SIZE, &place), DFU_NO_CONFIG);
}

/* Reads files that cause every refusal. The test of more than 16 MiB allocates that much memory, which a small machine does not have. */
static void files(void) {
    uint8_t file[32] = {0};
    struct dfu_file found;
    is("too short", dfu_host_file(file, 15, &found), DFU_FILE_TOO_SHORT);
    is("no signature", dfu_host_file(file, 16, &found), DFU_FILE_NO_SIGNATURE);
    memcpy(file + 24, "UFD", 3);
    is("a suffix of 0 bytes", dfu_host_file(file, 32, &found), DFU_FILE_BAD_LENGTH);
    file[27] = 33;
    is("a suffix that is too long", dfu_host_file(file, 32, &found), DFU_FILE_BAD_LENGTH);
    file[27] = 16, file[22] = 0x1a, file[23] = 1;
    is("DfuSe", dfu_host_file(file, 32, &found), DFU_FILE_DFUSE);
    file[22] = 0;
    is("a wrong sum", dfu_host_file(file, 32, &found), DFU_FILE_BAD_CRC);
    uint8_t *large = sizeof(void *) == 8 || sizeof(size_t) == 4 ? malloc(16777217) : NULL;
    if (large) {
        memset(large, 0, 16777217);
        is("too large", dfu_host_file(large, 16777217, &found), DFU_FILE_TOO_LARGE);
        is("not too large", dfu_host_file(large, 16777216, &found), DFU_FILE_NO_SIGNATURE);
    }
    free(large);
}

static void names(void) {
    static const char *const wanted[13] = {"", "installed", "unconfirmed", "aborted", "gave-up", "refused", "restarts-spent", "uploaded",
                                           "too-many-blocks", "no-memory", "verified", "different", ""};
    for (uint32_t report = 0; report < 13; report++) {
        long length = (long)strlen(wanted[report]);
        for (long room = 0; room < 20; room++) {
            uint8_t name[20];
            memset(name, '-', sizeof name);
            long got = dfu_host_name(report, name, (size_t)room);
            is("name", got, length <= room ? length : 0);
            is("its letters", memcmp(name, wanted[report], (size_t)got), 0);
            is("beyond it", got < 20 ? name[got] : '-', '-');
        }
    }
    is("no such name", dfu_host_name(0xffffffffu, NULL, 0), 0);
}

/* Makes calls with NULL for empty memory, and in each mode calls without a flash. */
static void nothing(void) {
    static uint8_t medium[DFU_MEDIUM_SIZE(1, 0, 1024)], block[DFU_BLOCK_SIZE(64, 1)], out[64];
    static const uint8_t setup[8] = {0xa1, 3, 0, 0, 0, 0, 6, 0}, download[8] = {0x21, 1, 0, 0, 0, 0, 65, 0}, detach[8] = {0x21, 0, 255};
    struct dfu_record record;
    struct dfu_session session;
    struct dfu_action action;
    struct dfu_file file;
    struct dfu_place place;
    struct dfu_ask ask;
    is("format", dfu_memory_format(&config, medium, sizeof medium, NULL, 0), 0);
    is("no medium", dfu_memory_format(&config, NULL, 0, NULL, 0), DFU_WRONG_SIZE);
    is("no medium to start from", dfu_core_power_on(&config, &record, NULL, 0), DFU_NO_MEDIUM);
    is("start", dfu_core_begin(&config, &record, medium, sizeof medium), 0);
    is("no block", dfu_core_handle(&config, &record, NULL, 0, medium, sizeof medium, setup, NULL, 0, out, 64), DFU_NO_BLOCK);
    is("no room", dfu_core_handle(&config, &record, block, sizeof block, medium, sizeof medium, setup, NULL, 0, NULL, 0), DFU_NO_ROOM);
    is("no medium", dfu_core_handle(&config, &record, block, sizeof block, NULL, 0, setup, NULL, 0, out, 64), DFU_NO_MEDIUM);
    is("no time", dfu_core_elapse(&config, &record, NULL, 0, NULL, 0, 1), DFU_NO_BLOCK);
    is("no reset", dfu_core_usb_reset(&config, &record, block, sizeof block, NULL, 0), DFU_NO_MEDIUM);
    is("no place", dfu_core_image(&config, NULL, 0, &place), DFU_NO_MEDIUM);
    is("nothing is blank", dfu_core_is_blank(&config, NULL, 0), DFU_WRONG_SIZE);
    is("status", dfu_core_handle(&config, &record, block, sizeof block, medium, sizeof medium, setup, NULL, 0, out, 64), 6);
    for (uint32_t mode = 0; mode < 14; mode++) {
        struct dfu_record it = record, old;
        it.mode = mode, it.number = 0, old = it;
        is("due", dfu_core_due(&config, &it) < 0, mode == 13);
        is("would stall", dfu_core_would_stall(&config, &it, sizeof medium, setup) < 0, mode == 13);
        is("closes", dfu_core_closes(&config, &it, setup), mode == 13 ? DFU_NO_DEVICE : 0);
        is("as it was", memcmp(&it, &old, sizeof it), 0);
        is("not long", dfu_core_too_long(&config, &it, setup), mode == 13 ? DFU_NO_DEVICE : DFU_NOT_LONG);
        is("detach is not long", dfu_core_too_long(&config, &it, detach), mode == 13 ? DFU_NO_DEVICE : DFU_NOT_LONG);
        is("too long", dfu_core_too_long(&config, &it, download), mode == 13 ? DFU_NO_DEVICE : DFU_STALL);
        is("stalled", dfu_core_state(&it), mode == 13 ? DFU_NO_DEVICE : mode < 2 ? 0 : mode == 10 ? 8 : 10);
    }
    is("nothing is due", dfu_core_next(&config, &record, block, sizeof block, medium, sizeof medium, &ask), DFU_NO_DEVICE);
    is("nothing took", dfu_core_took(&config, &record, block, sizeof block, NULL, 0, 0, out, 64), DFU_NO_DEVICE);
    is("host: no file", dfu_host_file(NULL, 0, &file), DFU_FILE_TOO_SHORT);
    is("host: no descriptor", dfu_host_upload(&session, NULL, 0, 1, 0), DFU_SHORT);
    memset(&session, 0, sizeof session);
    is("host: no session", dfu_host_next(&session, NULL, 0, &action), DFU_NO_SESSION);
    is("host: none to take", dfu_host_take(&session, NULL, 0, NULL, 0, 0, NULL, 0), DFU_NO_SESSION);
    is("host: none to abort", dfu_host_abort(&session, NULL, 0), DFU_NO_SESSION);
}

int main(void) {
    formats();
    files();
    names();
    nothing();
    return failed != 0;
}
