/* Tests the first image of a board whose images run on trial. If dfu_trial_format wrote it, in memory or through a driver, an update that
 * never confirms itself is started as often as it may be, and then the first image runs again. If dfu_device_format wrote it, the update
 * runs forever. A refused call writes nothing. */
#include <stdio.h>
#include <string.h>

#include "dfu_trial.h"

enum { UNIT = 16, SECTOR = 256, CAPACITY = 1024, STARTS = 20 };

static const struct dfu_config config = {DFU_VERSION, 0x0100, 1, 0x1209, 255, 64, 7, 0, 0, 0, 1, UNIT, SECTOR, 0, 0};
static uint8_t part[DFU_MEDIUM_SIZE(UNIT, SECTOR, CAPACITY)], block[DFU_BLOCK_SIZE(64, UNIT)], out[64], made[sizeof part];
static int wrong, left = -1;

/* A driver that fails, without a change, after `left` operations. */
static int erase(void *own, uint32_t at, uint32_t length)
{
    return left == 0 ? 1 : (left -= left > 0, dfu_memory_erase(own, at, length));
}

static int program(void *own, uint32_t at, const uint8_t *bytes, uint32_t length)
{
    return left == 0 ? 1 : (left -= left > 0, dfu_memory_program(own, at, bytes, length));
}

static const struct dfu_driver driver = {part, erase, program};
static struct dfu_device dfu = {
    .config = &config, .flash = part, .size = sizeof part, .block = block, .most = sizeof block, .driver = &driver};
static struct dfu_trial trial = {.flash = part, .size = sizeof part, .driver = &driver, .tries = {UNIT, SECTOR, 4}};

static void expect(const char *what, int holds)
{
    if (!holds) {
        printf("trial_first: %s\n", what);
        wrong = 1;
    }
}

static int32_t request(uint8_t kind, uint8_t what, uint8_t length)
{
    const uint8_t setup[8] = {kind, what, 0, 0, 0, 0, length, 0}, body[6] = {'B'};
    return dfu_trial_transfer(&trial, &dfu, setup) != 0 ? DFU_STALL : dfu_device_serve(&dfu, setup, body, out, sizeof out);
}

static const uint8_t first[3] = {'A', 1, 2};
static size_t first_length = sizeof first;

/* Installs an update and starts STARTS times. Returns the number of starts of the update before another image was started. */
static int starts_of_update(void)
{
    struct dfu_place place;
    int of_update = 0, is_over = 0;
    expect("begin", dfu_device_begin(&dfu) == 0 && request(0x21, DFU_DNLOAD, 1) == 0 && request(0xa1, DFU_GETSTATUS, 6) == 6
                        && request(0x21, DFU_DNLOAD, 0) == 0 && request(0xa1, DFU_GETSTATUS, 6) == 6);
    for (int start = 0; start < STARTS; start++) {
        expect("a start", dfu_trial_boot(&trial, &place) == 0);
        const int is_first = place.length == first_length, is_update = place.length == 1 && part[place.at] == 'B';
        expect("an image", (is_first && (first_length == 0 || part[place.at] == 'A')) || (is_update && !is_over));
        is_over |= is_first;
        of_update += is_update;
    }
    return of_update;
}

static void reverts(uint32_t tries)
{
    trial.tries.tries = tries;
    memset(part, 0xff, sizeof part);
    expect("a format over a driver", dfu_trial_format(&trial, &dfu, first, sizeof first) == 0);
    memcpy(made, part, sizeof part);
    const int over = starts_of_update();
    memset(part, 0x5a, sizeof part);
    expect("in memory", dfu_trial_format_memory(&config, tries, part, sizeof part, first, sizeof first) == 0);
    struct dfu_standing standing;
    expect("it is confirmed", dfu_trial_look(&trial, &standing) == 0 && standing.is_confirmed == 1 && standing.on_trial == 0);
    const int in_memory = starts_of_update();
    memset(part, 0xff, sizeof part);
    expect("without", dfu_device_format(&dfu, first, sizeof first) == 0);
    const int without = starts_of_update();
    printf("%u tries: %d of %d starts are the update's, %d if made in memory, %d if nothing was confirmed\n", (unsigned)tries, over, STARTS,
           in_memory, without);
    expect("as many as it may be", over == (int)tries && in_memory == (int)tries && without == STARTS);
}

/* A first image of no bytes, which can't start, becomes active again too; then the bootloader waits for another image. */
static void empty(void)
{
    trial.tries.tries = 4;
    memset(part, 0xff, sizeof part);
    first_length = 0;
    expect("a first image of no bytes", dfu_trial_format(&trial, &dfu, first, 0) == 0 && starts_of_update() == 4);
    first_length = sizeof first;
}

/* With a failure of any operation the result is 0 only if the image is confirmed; and the format can be repeated. */
static void fails(void)
{
    struct dfu_standing standing;
    int many = 0;
    for (left = 0; left < 100; left = many) {
        memset(part, 0xff, sizeof part);
        const int32_t n = dfu_trial_format(&trial, &dfu, first, sizeof first);
        const int is_done = left != 0;
        left = -1;
        const int is_well = dfu_trial_look(&trial, &standing) == 0 && standing.is_confirmed == 1;
        expect("a failure is told", (n == 0) == is_well && (n == 0 || n == DFU_NOT_WRITTEN));
        expect("again", dfu_trial_format(&trial, &dfu, first, sizeof first) == 0);
        if (is_done)
            break;
        many++;
    }
    left = -1;
    printf("%d operations, each of which failed\n", many);
    expect("operations", many > 4);
}

static void refused(void)
{
    const struct dfu_config flat = {DFU_VERSION, 0x0100, 1, 0x1209, 255, 64, 7, 0, 0, 0, 1, UNIT, 0, 0, 0};
    memset(part, 0x5a, sizeof part);
    memcpy(made, part, sizeof part);
    trial.tries.tries = 1;
    expect("few tries", dfu_trial_format(&trial, &dfu, first, 3) == DFU_FEW_TRIES);
    trial.tries.tries = 15;
    expect("many tries", dfu_trial_format(&trial, &dfu, first, 3) == DFU_MANY_TRIES);
    trial.tries.tries = 4;
    expect("no sectors", dfu_trial_format_memory(&flat, 4, part, sizeof part, first, 3) == DFU_NO_SECTORS);
    expect("too large", dfu_trial_format_memory(&config, 4, part, sizeof part, made, CAPACITY + 1) == DFU_TOO_LARGE);
    expect("wrong size", dfu_trial_format_memory(&config, 4, part, sizeof part - 1, first, 3) == DFU_WRONG_SIZE);
    expect("nothing is written", memcmp(made, part, sizeof part) == 0);
}

int main(void)
{
    reverts(2);
    reverts(4);
    reverts(14);
    empty();
    fails();
    refused();
    return wrong;
}
