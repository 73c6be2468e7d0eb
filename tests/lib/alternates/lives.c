/* Calls examples/alternates as a USB stack does: SET_INTERFACE in each stage of a transfer, a loss of power and a failure at each operation
 * of a download, and a store without an image. The bytes of the other settings must never change. */
#include "alternates.h"
#include "part.h"
#include "raw.h"

#include <stdio.h>
#include <stdlib.h>
#include <string.h>

enum { LENGTH = 3000, STAGES = 9 };
static uint8_t data[BLOCK], old[SETTINGS][LENGTH], new[LENGTH], before[PART];
static unsigned checks, olds, news, halves;

static void must(int is_right, const char *what, unsigned setting, unsigned number) {
    checks++;
    if (is_right)
        return;
    printf("%s: setting %u, %u\n", what, setting, number);
    exit(1);
}

static int32_t request(uint8_t type, uint8_t what, unsigned value, unsigned length) {
    const uint8_t setup[8] = {type, what, (uint8_t)value, (uint8_t)(value >> 8), 0, 0, (uint8_t)length, (uint8_t)(length >> 8)};
    return alternates_request(setup, data, sizeof data);
}

static int32_t status(void) {
    const int32_t n = request(0xa1, DFU_GETSTATUS, 0, 6);
    alternates_answered();
    return n == 6 ? data[0] << 8 | data[4] : -1;
}

static int32_t select_setting(unsigned setting) {
    return request(0x01, 11, setting, 0);
}

/* Polls, at most four times, until the block is written. Returns the status code of the last answer, or -1 if that poll was stalled. */
static int32_t settled(void) {
    int32_t n = status();
    for (int i = 0; i < 3 && (n == DFU_STATE_DNBUSY || n == DFU_STATE_DNLOAD_SYNC); i++)
        n = status();
    return n < 0 ? n : n >> 8;
}

/* Downloads to the chosen setting up to a stage: 0 is no request; then a block and its status alternate; the last two are the close and its
 * status. Returns 0, the first status code that is not OK, or -1 if a request was stalled. */
static int32_t download(unsigned stage) {
    for (unsigned i = 0; i < stage && i < STAGES - 1; i++) {
        const unsigned number = i / 2, at = number * BLOCK, length = at > LENGTH ? 0 : LENGTH - at < BLOCK ? LENGTH - at : BLOCK;
        if (i % 2 == 0 && length != 0)
            memcpy(data, new + at, length);
        const int32_t n = i % 2 == 0 ? request(0x21, DFU_DNLOAD, number, length) : settled();
        if (n != 0)
            return n < 0 ? -1 : n;
    }
    return 0;
}

static const uint8_t *bytes_of(unsigned setting, uint32_t *length) {
    const uint8_t *from = part + setting_table[setting].place->at;
    struct dfu_place found = {0, LENGTH};
    if (setting_table[setting].device != NULL && dfu_device_image(setting_table[setting].device, &found) != 0)
        found.length = 0;
    *length = found.length;
    return from + found.at;
}

static int has(unsigned setting, const uint8_t *wanted) {
    uint32_t length;
    const uint8_t *bytes = bytes_of(setting, &length);
    return length == LENGTH && memcmp(bytes, wanted, LENGTH) == 0;
}

static void power_on(void) {
    must(alternates_power_on() == 0, "power", 0, 0);
    alternates_configured(1);
}

static void make(void) {
    memset(part, 0xff, sizeof part);
    failing = lying = cut = 0;
    for (unsigned i = 0; i < 2; i++)
        must(dfu_device_format(setting_table[i].device, old[i], LENGTH) == 0, "format", i, 0);
    memcpy(part + setting_table[2].place->at, old[2], LENGTH);
    memcpy(before, part, sizeof part);
    power_on();
    operations = 0;
}

/* Checks that the part has changed only in the place of this setting. */
static int others_stay(unsigned setting) {
    const struct place *place = setting_table[setting].place;
    const uint32_t end = place->at + place->length;
    return memcmp(part, before, place->at) == 0 && memcmp(part + end, before + end, PART - end) == 0;
}

/* Begins a transfer in one setting, switches to another, and makes a whole download there. */
static void change(unsigned from, unsigned to, unsigned stage) {
    make();
    must(select_setting(from) == 0 && download(stage) == 0, "a stage", from, stage);
    must(others_stay(from), "others", from, stage);
    must(select_setting(to) == 0 && request(0x81, 10, 0, 1) == 1 && data[0] == to, "SET_INTERFACE", to, stage);
    must(status() == DFU_STATE_IDLE, "the setting begins in dfuIDLE", to, stage);
    memcpy(before, part, sizeof part);
    must(download(STAGES) == 0 && status() == DFU_STATE_IDLE && has(to, new), "a download in another setting", to, stage);
    must(others_stay(to), "others", to, stage);
    must(select_setting(from) == 0 && status() == DFU_STATE_IDLE, "back", from, stage);
    if (from != to && from < 2)
        must(has(from, stage < STAGES - 1 ? old[from] : new), "the image of a store", from, stage);
    must(download(STAGES) == 0 && has(from, new), "a download after it", from, stage);
}

/* Loses power during operation `number` of a download. Returns 0 if the download has fewer operations. */
static unsigned lose_power(unsigned setting, unsigned number, unsigned way) {
    make();
    cut = number;
    tear = way;
    if (setjmp(off) == 0) {
        must(select_setting(setting) == 0 && download(STAGES) == 0, "a download", setting, number);
        cut = 0;
        return 0;
    }
    cut = 0;
    must(others_stay(setting), "others, power", setting, number);
    power_on();
    must(others_stay(setting), "others, after it", setting, number);
    const unsigned is_old = (unsigned)has(setting, old[setting]), is_new = (unsigned)has(setting, new);
    must(setting == 2 || is_old || is_new, "neither image", setting, number);
    olds += is_old;
    news += is_new;
    halves += !is_old && !is_new;
    must(select_setting(setting) == 0 && download(STAGES) == 0 && has(setting, new), "a download after it", setting, number);
    return 1;
}

/* Lets an operation fail, or lets the part report success without doing it. The device must report a status code, and a store must hold the
 * old image or the whole new one. If the operation would change no byte, a false report has no effect. */
static void fail(unsigned setting, unsigned number, unsigned *word) {
    make();
    *word = number;
    const int is_lie = word == &lying;
    must(select_setting(setting) == 0, "SET_INTERFACE", setting, number);
    const int32_t code = download(STAGES);
    must(code != 0 || is_lie, "a failure is told", setting, number);
    must(code == 0 ? has(setting, new) : setting == 2 || has(setting, old[setting]) || has(setting, new), "the image", setting, number);
    must(code <= 0 || setting != 2 || (is_lie ? code == DFU_STATUS_ERR_VERIFY || code == DFU_STATUS_ERR_CHECK_ERASED
                                                  : code == DFU_STATUS_ERR_ERASE || code == DFU_STATUS_ERR_PROG),
         "the code", setting, number);
    must(others_stay(setting), "others, failure", setting, number);
}

static void refusals(void) {
    make();
    must(select_setting(1) == 0, "SET_INTERFACE", 1, 0);
    static const uint8_t setups[][8] = {{0x01, 11, 3, 0, 0, 0, 0, 0}, {0x01, 11, 0, 1, 0, 0, 0, 0}, {0x01, 11, 0, 0, 1, 0, 0, 0},
                                        {0x01, 11, 0, 0, 0, 1, 0, 0}, {0x01, 11, 0, 0, 0, 0, 1, 0}, {0x01, 11, 0, 0, 0, 0, 0, 1},
                                        {0x81, 11, 0, 0, 0, 0, 0, 0}, {0x81, 10, 0, 0, 0, 0, 2, 0}, {0x81, 10, 1, 0, 0, 0, 1, 0},
                                        {0x81, 10, 0, 0, 0, 0, 1, 1}, {0x01, 10, 0, 0, 0, 0, 1, 0}, {0x00, 11, 0, 0, 0, 0, 0, 0}};
    for (unsigned i = 0; i < sizeof setups / sizeof *setups; i++)
        must(alternates_request(setups[i], data, sizeof data) < 0, "a setup is taken", 1, i);
    must(request(0x81, 10, 0, 1) == 1 && data[0] == 1, "a refusal chooses", 1, 0);
    must(alternates_reset() == 1 && alternates_state() == DFU_STATE_APP_IDLE && alternates_reset() == 0, "a reset", 1, 0);
    must(select_setting(1) < 0 && request(0x81, 10, 0, 1) < 0, "a device that isn't configured", 1, 0);
    alternates_configured(1);
    must(request(0x81, 10, 0, 1) == 1 && data[0] == 0 && alternates_state() == DFU_STATE_IDLE, "a device is configured", 0, 0);
    must(alternates_reset() == 1 && alternates_state() == DFU_STATE_APP_IDLE, "a reset", 0, 0);
    alternates_configured(1);
    must(alternates_state() == DFU_STATE_IDLE, "a device that is configured anew", 0, 0);
    /* The raw area receives as many bytes as it can hold. */
    must(select_setting(2) == 0, "SET_INTERFACE", 2, 0);
    const unsigned blocks = setting_table[2].place->length / BLOCK;
    for (unsigned i = 0; i < blocks; i++)
        must(request(0x21, DFU_DNLOAD, i, BLOCK) == 0 && settled() == 0, "a block", 2, i);
    must(request(0x21, DFU_DNLOAD, blocks, 1) < 0, "a block too many", 2, blocks);
    must(status() == (DFU_STATUS_ERR_ADDRESS << 8 | DFU_STATE_ERROR) && others_stay(2), "its code", 2, blocks);
    must(request(0x21, DFU_CLRSTATUS, 0, 0) == 0 && status() == DFU_STATE_IDLE, "CLRSTATUS", 2, 0);
    /* The second store is damaged, and not blank: it can't be chosen, and the other settings still work. */
    make();
    memset(part + setting_table[1].place->at, 0, setting_table[1].place->length);
    memcpy(before, part, sizeof part);
    power_on();
    must(select_setting(2) == 0 && select_setting(1) < 0 && request(0x81, 10, 0, 1) == 1 && data[0] == 2, "a damaged store", 1, 0);
    must(download(STAGES) == 0 && has(2, new) && others_stay(2), "the raw area beside it", 2, 0);
    must(select_setting(0) == 0 && download(STAGES) == 0 && has(0, new), "the firmware beside it", 0, 0);
}

int main(void) {
    for (unsigned i = 0; i < LENGTH; i++) {
        new[i] = (uint8_t)(i * 7 + (i >> 8) + 3);
        for (unsigned setting = 0; setting < SETTINGS; setting++)
            old[setting][i] = (uint8_t)(i * (5 + 2 * setting) + (i >> 7));
    }
    for (unsigned from = 0; from < SETTINGS; from++)
        for (unsigned to = 0; to < SETTINGS; to++)
            for (unsigned stage = 0; stage <= STAGES; stage++)
                change(from, to, stage);
    for (unsigned setting = 0; setting < SETTINGS; setting++) {
        unsigned number = 1;
        olds = news = halves = 0;
        while (lose_power(setting, number, 0)) {
            for (unsigned way = 1; way < TEARS; way++)
                lose_power(setting, number, way);
            number++;
        }
        for (unsigned i = 1; i < number; i++) {
            fail(setting, i, &failing);
            fail(setting, i, &lying);
        }
        must(setting == 2 ? halves > 0 : halves == 0 && olds > 0 && news > 0, "the counts", setting, halves);
        printf("%s: %u operations, cut in %d ways: ", setting_table[setting].name, number - 1, TEARS);
        printf("old %u, new %u, neither %u\n", olds, news, halves);
    }
    refusals();
    printf("%u checks\n", checks);
    return 0;
}
