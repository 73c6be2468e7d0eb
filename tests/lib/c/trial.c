/* Tests images on trial with the device's library, in simulated flash: rows worked out by hand, each refusal, and plans of downloads,
 * uploads, starts, confirmations and ends. In the plans each operation in turn fails, reports a false success, or loses power, and leaves
 * its bytes in each of twenty ways. A model of four numbers gives the expected state: the base, the image on trial, its remaining starts,
 * and if any image was confirmed. In each case an image must start: the base, or the image on trial with its start recorded, at most
 * `tries` times since its download. An image whose trial ended may not start again unless it is downloaded again. An upload returns the
 * image that the next start runs.
 *
 * `trial RUNS` makes this many runs with a fault, and prints their number. */
#include "dfu_trial.h"
#include <stdio.h>
#include <stdlib.h>
#include <string.h>

enum { SECTOR = 256, CAPACITY = 256, WELL = 0, FAILS, LIES, CUT, TEARS = 20 };
static struct dfu_config config = {.version = DFU_VERSION, .device = 0x0100, .product = 1, .vendor = 0x1209, .detach_ms = 255,
    .transfer = 64, .attributes = 7, .busy_ms = 5, .manifest_ms = 10, .least = 1, .unit = 16, .sector = SECTOR};
static uint8_t part[2 * (2 * SECTOR + CAPACITY)], block[DFU_BLOCK_SIZE(64, 64)], out[64];
static unsigned long runs, operations, starts, checks;
static int wrong, harm, tear, is_offered, is_off;
static long fuse; /* number of the operation that gets the fault; after a loss of power there are no more operations */
static uint32_t dice, made[64][3], count;

static uint32_t roll(uint32_t sides) {
    dice = dice * 1664525u + 1013904223u;
    return (dice >> 8) % sides;
}
static void expect(const char *what, int holds) {
    checks++;
    if (!holds && wrong < 10)
        printf("trial: %s; unit %u, harm %d, tear %d, run %lu\n", what, (unsigned)config.unit, harm, tear, runs);
    wrong += !holds;
}

/* Returns the value of a byte after an operation with the fault. */
static uint8_t torn(uint32_t i, uint32_t length, uint8_t old, uint8_t meant) {
    switch (tear) {
    case 0: return old;
    case 1: return meant;
    case 2: return i == 0 ? meant : old;
    case 3: return i != 0 ? meant : old;
    case 4: return i < length / 2 ? meant : old;
    case 5: return i >= 16 ? meant : old;
    case 6: return i < 16 ? meant : old;
    case 7: return 0xff;
    case 8: return 0;
    case 9: return i == 0 ? 0xa5 : old;
    case 10: return i == length - 1 ? 0 : old;
    default: return (uint8_t)roll(256);
    }
}
static int operate(uint32_t kind, uint32_t at, const uint8_t *bytes, uint32_t length) {
    const int is_meant = !is_off && fuse-- == 0;
    if (is_off)
        return 1;
    made[count % 64][0] = kind, made[count % 64][1] = at, made[count % 64][2] = length;
    count++, operations++;
    expect("an operation lies within the flash", at + length <= sizeof part && (kind == DFU_ERASE ? at % SECTOR : at % config.unit) == 0);
    int is_blank = 1;
    for (uint32_t i = 0; i < length; i++) {
        const uint8_t meant = kind == DFU_ERASE ? 0xff : bytes[i];
        is_blank &= part[at + i] == 0xff;
        part[at + i] = is_meant ? torn(i, length, part[at + i], meant) : meant;
    }
    expect("all bytes are FFh that are programmed", kind == DFU_ERASE || is_blank);
    is_off = is_meant && harm == CUT;
    return is_off || (is_meant && harm == FAILS);
}
static int erase(void *own, uint32_t at, uint32_t length) {
    (void)own;
    return operate(DFU_ERASE, at, NULL, length);
}
static int program(void *own, uint32_t at, const uint8_t *bytes, uint32_t length) {
    (void)own;
    return operate(DFU_PROGRAM, at, bytes, length);
}
static const struct dfu_driver driver = {NULL, erase, program};
static struct dfu_device device = {.config = &config, .flash = part, .size = sizeof part, .block = block, .most = sizeof block,
    .driver = &driver};
static struct dfu_trial trial = {.flash = part, .size = sizeof part, .driver = &driver, .tries = {16, SECTOR, 2}};

static int32_t request(uint8_t kind, uint8_t what, const uint8_t *body, uint16_t length) {
    const uint8_t setup[8] = {kind, what, 0, 0, 0, 0, (uint8_t)length, 0};
    const int32_t ended = dfu_trial_transfer(&trial, &device, setup);
    return ended != 0 ? DFU_STALL : dfu_device_serve(&device, setup, body, out, sizeof out);
}
static void power_comes(const uint8_t *image, size_t length) {
    memset(part, 0xff, sizeof part);
    fuse = -1;
    expect("a format", dfu_device_format(&device, image, length) == 0);
    count = 0;
}
/* Downloads an image up to the last request before the close; `finish` does the rest. */
static int32_t send(const uint8_t *image, uint16_t length) {
    int32_t n;
    dfu_device_begin(&device);
    n = request(0x21, DFU_DNLOAD, image, length);
    request(0xa1, DFU_GETSTATUS, block, 6), dfu_device_work(&device), request(0xa1, DFU_GETSTATUS, block, 6);
    return n;
}
static void finish(void) {
    request(0x21, DFU_DNLOAD, block, 0), request(0xa1, DFU_GETSTATUS, block, 6), dfu_device_work(&device);
    request(0xa1, DFU_GETSTATUS, block, 6);
}

/* Checks the last operation. The rows worked out by hand are for unit 16, sector 256, 256 bytes of data, and two tries. The slots are at
 * offsets 0 and 768, and their data at 512 and 1,280. */
static void did(const char *what, uint32_t kind, uint32_t at, uint32_t length) {
    const uint32_t *last = made[(count - 1) % 64];
    runs++;
    expect(what, last[0] == kind && last[1] == at && last[2] == length);
}
static void stands(const char *what, uint32_t on_trial, uint32_t left, uint32_t active, uint32_t base) {
    struct dfu_standing s;
    runs++;
    expect(what, dfu_trial_look(&trial, &s) == 0 && s.on_trial == on_trial && s.left == left && s.active.at == active && s.base.at == base);
}
static void boots(const char *what, uint32_t at, uint32_t wanted) {
    struct dfu_place place = {9, 9};
    runs++, count = 0;
    expect(what, dfu_trial_boot(&trial, &place) == 0 && place.at == at && count == wanted);
}
static void uploads(const char *what, uint8_t first, int32_t length, uint32_t wanted) {
    runs++, dfu_device_begin(&device), count = 0;
    expect(what, request(0xa1, DFU_UPLOAD, block, 64) == length && out[0] == first && count == wanted);
}
static const uint8_t factory[1] = {0}, four[4] = {0xff, 0xff, 0xff, 0xff}, other[9] = "123456789";
static uint8_t kept[sizeof part];
static void second_row(void) {
    power_comes(factory, 1);
    expect("row 1", dfu_trial_accept(&trial, 512) == 0), did("row 1", DFU_PROGRAM, 272, 16);
    count = 0;
    send(four, 4), finish();
}
static void rows(void) {
    static const uint32_t install[6][3] = {{1, 1280, 256}, {2, 1280, 16}, {1, 1024, 256}, {2, 1024, 16}, {1, 768, 256}, {2, 768, 16}};
    static const uint8_t header[16] = {1, 2, 0, 0, 4};
    struct dfu_place place;
    second_row();
    expect("row 2", count == 6 && memcmp(made, install, sizeof install) == 0 && memcmp(part + 1024, header, 16) == 0);
    stands("row 2", 1, 2, 1280, 512);
    memcpy(kept, part, sizeof part);
    boots("row 3", 1280, 1), did("row 3", DFU_PROGRAM, 1056, 16), boots("row 3", 1280, 1), did("row 3", DFU_PROGRAM, 1072, 16);
    stands("row 3", 1, 0, 1280, 512);
    boots("row 3", 512, 1), did("row 3", DFU_ERASE, 768, 256), boots("row 3", 512, 0);
    expect("row 3", dfu_device_image(&device, &place) == 0 && place.at == 512 && place.length == 1);
    stands("row 3", 0, 0, 512, 512);
    memcpy(part, kept, sizeof part), uploads("an upload", 0xff, 4, 0), boots("an upload", 1280, 1);
    uploads("a start is left", 0xff, 4, 0), boots("a start is left", 1280, 1);
    uploads("none is left", 0, 1, 1), did("none is left", DFU_ERASE, 768, 256), stands("none is left", 0, 0, 512, 512);
    uploads("nothing is on trial", 0, 1, 0), boots("nothing is on trial", 512, 0);
    memcpy(part, kept, sizeof part), fuse = 0, harm = LIES, tear = 7;
    boots("row 4: a mark that lies", 512, 1), stands("row 4", 1, 2, 1280, 512);
    fuse = 0, harm = FAILS, tear = 2;
    boots("row 4: a mark that fails, and reads set", 1280, 1), stands("row 4", 1, 1, 1280, 512);
    memcpy(part, kept, sizeof part), boots("row 5", 1280, 1);
    count = 0;
    expect("row 5", dfu_trial_accept(&trial, 512) == 0 && count == 0 && dfu_trial_accept(&trial, 513) == DFU_ELSEWHERE);
    fuse = 0, harm = FAILS, tear = 10;
    expect("row 5", dfu_trial_accept(&trial, 1280) == 0 && part[1054] == 0xff && part[1055] == 0), did("row 5", DFU_PROGRAM, 1040, 16);
    count = 0;
    expect("row 5", dfu_trial_accept(&trial, 1280) == 0 && count == 0), stands("row 5", 0, 0, 1280, 1280);
    power_comes(factory, 1), send(four, 4), finish(), stands("row 6", 0, 0, 1280, 1280);
    memcpy(part, kept, sizeof part), boots("row 7", 1280, 1);
    count = 0;
    expect("row 7", send(other, 9) == 0 && made[0][0] == DFU_ERASE && made[0][1] == 768), stands("row 7", 0, 0, 512, 512);
    finish(), stands("row 7", 1, 2, 1280, 512), expect("row 7", part[1024] == 1 && part[1028] == 9);
    count = 0;
    expect("an end", dfu_trial_give_up(&trial) == 0 && count == 1), did("an end", DFU_ERASE, 768, 256);
    expect("no end", dfu_trial_give_up(&trial) == 0 && count == 1), stands("an end", 0, 0, 512, 512);
    second_row(), part[1280] ^= 1, stands("the image on trial fades", 0, 0, 512, 512);
    second_row(), part[512] ^= 1, stands("the confirmed image fades", 0, 0, 1280, 1280);
}
static void is_refused(int32_t number, uint32_t unit, uint32_t sector, uint32_t tries) {
    const struct dfu_tries with = {unit, sector, tries};
    struct dfu_ask ask, ask_before;
    struct dfu_standing standing, standing_before;
    struct dfu_starting starting, starting_before;
    memset(&ask, 9, sizeof ask), memset(&standing, 9, sizeof standing), memset(&starting, 9, sizeof starting);
    ask_before = ask, standing_before = standing, starting_before = starting;
    runs++;
    expect("a refusal", dfu_core_trial_look(&with, part, sizeof part, &standing) == number
        && dfu_core_trial_start(&with, part, sizeof part, &ask, &starting) == number
        && dfu_core_trial_start_from(&with, part, sizeof part, &standing, &ask, &starting) == number
        && dfu_core_trial_confirm(&with, part, sizeof part, 512, &ask) == number
        && dfu_core_trial_end(&with, part, sizeof part, &ask) == number && dfu_core_trial_upload(&with, part, sizeof part, &ask) == number);
    expect("a refusal changes nothing", memcmp(&ask, &ask_before, sizeof ask) == 0
        && memcmp(&standing, &standing_before, sizeof standing) == 0 && memcmp(&starting, &starting_before, sizeof starting) == 0);
}
static void refusals(void) {
    static const int32_t by[][4] = {{DFU_NO_CONFIG, 2, 256, 2}, {DFU_NO_CONFIG, 2, 0, 0}, {DFU_NO_CONFIG, 16, 100, 1},
        {DFU_NO_CONFIG, 16, 524288, 2}, {DFU_NO_SECTORS, 16, 0, 2}, {DFU_NO_SECTORS, 1, 0, 0}, {DFU_FEW_TRIES, 16, 256, 0},
        {DFU_FEW_TRIES, 16, 256, 1}, {DFU_MANY_TRIES, 16, 256, 15}, {DFU_MANY_TRIES, 64, 256, 3}, {DFU_MANY_TRIES, 16, 256, -1},
        {DFU_NO_MEDIUM, 16, 256, 2}, {DFU_NO_MEDIUM, 16, 256, 14}};
    memset(part, 0xff, sizeof part);
    for (size_t i = 0; i < sizeof by / sizeof *by; i++)
        is_refused(by[i][0], (uint32_t)by[i][1], (uint32_t)by[i][2], (uint32_t)by[i][3]);
}
#include "trial_plans.h"

int main(int words, char **word) {
    const unsigned long wanted = words > 1 ? (unsigned long)atol(word[1]) : 100000;
    rows();
    refusals();
    plans(wanted);
    printf("%lu runs, %lu operations, %lu starts, %lu checks, %d wrong\n", runs, operations, starts, checks, wrong);
    return wrong != 0;
}
