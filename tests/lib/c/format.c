/* Tests a format without a driver, in each unit, in place and with sectors, on flash with any contents: it must leave the same bytes as
 * dfu_memory_format. The result must report a failure and a false report of success at each write and erase. A loss of power must leave the
 * new image, or none once both gates are closed, and the next format must succeed. Meanwhile every other call is refused. */
#include "driver.h"

enum { DATA = 8192, MOST = 2 * (2 * 4096 + DATA), IMAGE = 4500 };
static const uint32_t units[] = {1, 16, 64, 256}, sectors[] = {0, 1024, 4096}, lengths[] = {0, 1, 300, IMAGE, DATA};
static uint8_t flash[MOST], made[MOST], was[MOST], image[DATA];
static struct dfu_record record;
static size_t size;
static uint32_t unit, sector;
static long formats, cuts;
static int wrong;

static void expect(const char *what, int holds, uint32_t length, const struct fate *fate) {
    if (!holds) {
        printf("format: %s, unit %u, sector %u, image of %u, trouble %d at write %u behind %u\n", what, (unsigned)unit,
               (unsigned)sector, (unsigned)length, (int)fate->trouble, (unsigned)fate->write, (unsigned)fate->behind);
        wrong = 1;
    }
}

/* Carries out an operation with this fault. Returns 1 if the operation reports a failure. */
static uint32_t carry(const struct dfu_ask *ask, const struct fate *fate) {
    static uint8_t blank[4096];
    memset(blank, 0xff, sizeof blank);
    const uint8_t *from = ask->kind == DFU_ERASE ? blank : ask->bytes;
    uint32_t whole = ask->kind == DFU_ERASE ? sector : unit;
    int is_meant = fate->trouble != WELL && writes++ == fate->write;
    if (fate->trouble == WELL)
        writes++;
    last_length = ask->length;
    if (ask->length < 1 || ask->at + (size_t)ask->length > size || ask->at % whole != 0 || ask->length % whole != 0
        || (ask->kind != DFU_ERASE && ask->length > 256)) {
        printf("format: an ask that is none\n");
        exit(1);
    }
    for (uint32_t i = 0; sector != 0 && ask->kind == DFU_PROGRAM && i < ask->length; i++)
        if (flash[ask->at + i] != 0xff) {
            printf("format: a program of what was not erased\n");
            exit(1);
        }
    memcpy(flash + ask->at, from, is_meant && fate->trouble != LIES ? fate->behind : ask->length);
    if (!is_meant)
        return 0;
    if (fate->trouble == LIES) {
        flash[ask->at + roll(ask->length)] ^= 1;
        return 0;
    }
    for (uint32_t i = fate->behind; fate->torn && i < ask->length; i++)
        flash[ask->at + i] = (uint8_t)roll(256);
    is_off = fate->trouble == CUT;
    return 1;
}

/* While operations of a format are pending, each call for a device is refused, and changes nothing. */
static void others(uint32_t length) {
    static uint8_t block[DFU_BLOCK_SIZE(64, 256)], out[64];
    const uint8_t setup[8] = {0xa1, 3, 0, 0, 0, 0, 6, 0};
    const struct fate none = {WELL, 0, 0, 0};
    struct dfu_record kept = record;
    struct dfu_ask ask = {7, 7, 7, {7}};
    expect("asked", dfu_core_handle(&config, &record, block, sizeof block, flash, size, setup, block, 0, out, 64) == DFU_BUSY
                        && dfu_core_elapse(&config, &record, block, sizeof block, flash, size, 9) == DFU_BUSY
                        && dfu_core_usb_reset(&config, &record, block, sizeof block, flash, size) == DFU_BUSY
                        && dfu_core_next(&config, &record, block, sizeof block, flash, size, &ask) == DFU_BUSY
                        && dfu_core_took(&config, &record, block, sizeof block, flash, size, 0, out, 64) == DFU_BUSY
                        && dfu_core_would_stall(&config, &record, size, setup) == DFU_BUSY && ask.kind == 7
                        && memcmp(&kept, &record, sizeof kept) == 0, length, &none);
}

static int32_t format(uint32_t length, const struct fate *fate) {
    formats++;
    writes = 0;
    is_off = 0;
    int32_t answer = dfu_core_format_start(&config, &record, flash, size, image, length);
    while (answer == DFU_WRITE_PENDING) {
        struct dfu_ask ask;
        if (writes == 1)
            others(length);
        int32_t refused = dfu_core_format_next(&config, &record, flash, size, image, length, &ask);
        if (refused != 0)
            return refused;
        uint32_t failed = carry(&ask, fate);
        if (is_off)
            return DFU_WRITE_PENDING;
        answer = dfu_core_format_took(&config, &record, flash, size, image, length, failed);
    }
    return answer;
}

static int has(uint32_t length) {
    struct dfu_place place;
    return dfu_core_image(&config, flash, size, &place) == 0 && place.at < size / 2 && place.length == length
        && memcmp(flash + place.at, image, length) == 0;
}

static void restart(void) {
    memcpy(flash, was, sizeof flash);
}

static void each_trouble(uint32_t length, uint32_t all) {
    const struct fate well = {WELL, 0, 0, 0};
    for (uint32_t write = 0; write < all; write++) {
        const struct fate fails = {FAILS, 1, write, 0}, lies = {LIES, 0, write, 0};
        restart();
        expect("a failure", format(length, &fails) == DFU_NOT_WRITTEN, length, &fails);
        restart();
        expect("a lie", format(length, &lies) == DFU_NOT_WRITTEN, length, &lies);
        expect("nothing is due", dfu_core_format_took(&config, &record, flash, size, image, length, 0) == DFU_NO_DEVICE, length, &lies);
        for (uint32_t behind = 0, step = 0; behind <= last_length; behind += step) {
            const struct fate cut = {CUT, 1, write, behind};
            step = last_length > 64 ? last_length / 8 + 1 : last_length / 4 + 1;
            cuts++;
            restart();
            expect("off", format(length, &cut) == DFU_WRITE_PENDING && is_off, length, &cut);
            struct dfu_place place;
            int is_any = dfu_core_image(&config, flash, size, &place) == 0;
            expect("the new image or none", write < 2 || !is_any || (has(length) && write + (sector != 0 ? 2 : 1) >= all), length, &cut);
            expect("the next format", format(length, &well) == 0 && has(length), length, &cut);
        }
    }
}

static void try_all(void) {
    const struct fate well = {WELL, 0, 0, 0};
    for (size_t i = 0; i < sizeof lengths / sizeof *lengths; i++) {
        uint32_t length = lengths[i];
        for (size_t at = 0; at < size; at++)
            was[at] = (uint8_t)roll(256);
        if (roll(2) && dfu_memory_format(&config, was, size, image, 77) != 0)
            exit(1);
        memcpy(made, was, sizeof made);
        restart();
        expect("a format", format(length, &well) == 0 && record.work == 0, length, &well);
        expect("in memory", dfu_memory_format(&config, made, size, image, length) == 0, length, &well);
        expect("they are one", memcmp(flash, made, size) == 0 && has(length), length, &well);
        expect("power on", dfu_core_power_on(&config, &record, flash, size) == 0, length, &well);
        if (length <= IMAGE)
            each_trouble(length, writes);
    }
}

/* Checks the refusals in their order. Each of the three calls checks the image that it receives. */
static void refusals(void) {
    const struct fate well = {WELL, 0, 0, 0};
    config.unit = unit = 1;
    struct dfu_config other = config, three = config, odd = config;
    struct dfu_record kept = record;
    struct dfu_ask ask = {7, 7, 7, {7}};
    other.version++;
    three.unit = 3;
    odd.sector = 100;
    config.sector = 0;
#define START(config, size, length) dfu_core_format_start(config, &record, flash, size, image, length)
    expect("start", START(&other, 66, DATA) == DFU_NO_CONFIG && START(&three, 66, DATA) == DFU_NO_CONFIG
                        && START(&odd, 66, DATA) == DFU_NO_CONFIG && START(&config, 64, DATA) == DFU_WRONG_SIZE
                        && START(&config, 66 + 1, DATA) == DFU_WRONG_SIZE && START(&config, 2 * (2 * 16 + 256), 257) == DFU_TOO_LARGE
                        && memcmp(&kept, &record, sizeof kept) == 0, 0, &well);
    expect("next", dfu_core_format_next(&other, &record, flash, size, image, 0, &ask) == DFU_NO_CONFIG
                       && dfu_core_format_next(&config, &record, flash, size, image, 0, &ask) == DFU_NO_DEVICE && ask.kind == 7, 0, &well);
    expect("took", dfu_core_format_took(&other, &record, flash, size, image, 0, 0) == DFU_NO_CONFIG
                       && dfu_core_format_took(&config, &record, flash, size, image, 0, 0) == DFU_NO_DEVICE, 0, &well);
}

/* With a garbled record no operation lies outside the flash. */
static void garbled(void) {
    const struct fate well = {WELL, 0, 0, 0};
    for (long call = 0; call < 200000; call++) {
        struct dfu_ask ask = {7, 7, 7, {7}};
        uint32_t length = roll(20) ? roll(DATA) : roll(DATA + 1);
        if (call % 16 == 0) {
            config.unit = unit = units[roll(4)];
            config.sector = sector = roll(2) * 256 << roll(5);
            size = DFU_MEDIUM_SIZE(unit, sector, 4096);
            (void)START(&config, size, length);
        }
        for (uint32_t i = 0, all = roll(4); i < all; i++)
            ((uint8_t *)&record)[roll(sizeof record)] = (uint8_t)(roll(3) ? roll(5) : roll(256));
        record.work = roll(8) ? 3 : record.work;
        struct dfu_record kept = record;
        memcpy(was, flash, sizeof was);
        if (dfu_core_format_next(&config, &record, flash, size, image, length, &ask) == 0) {
            int is_erase = ask.kind == DFU_ERASE && config.sector != 0 && ask.length == config.sector && ask.at % config.sector == 0;
            int is_program = ask.kind == DFU_PROGRAM && ask.length >= 1 && ask.length <= 256;
            expect("an ask that is none", (is_erase || is_program) && ask.at + (size_t)ask.length <= size, length, &well);
        } else {
            expect("a refusal that is none", ask.kind == 7, length, &well);
        }
        expect("it changed something", memcmp(&kept, &record, sizeof kept) == 0, length, &well);
        int32_t result = dfu_core_format_took(&config, &record, flash, size, image, length, roll(4) == 0);
        expect("it wrote", memcmp(was, flash, sizeof was) == 0, length, &well);
        expect("a number that is none", result == 0 || result == DFU_WRITE_PENDING || result == DFU_NOT_WRITTEN || result == DFU_NO_DEVICE, length,
               &well);
    }
}

int main(void) {
    config.transfer = 64;
    for (size_t i = 0; i < sizeof image; i++)
        image[i] = (uint8_t)(i * 7 + i / 256);
    for (size_t i = 0; i < 4; i++) {
        for (size_t j = 0; j < 3; j++) {
            config.unit = unit = units[i];
            config.sector = sector = sectors[j];
            size = DFU_MEDIUM_SIZE(unit, sector, DATA);
            try_all();
        }
    }
    refusals();
    garbled();
    printf("format: %ld formats, %ld losses of power\n", formats, cuts);
    return wrong;
}
