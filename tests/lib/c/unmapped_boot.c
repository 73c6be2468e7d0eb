/* Tests trials, a run area and two areas over mapped flash, and over flash that is not mapped: with DFU_READ both chips are memory without
 * access, so any read other than by the program's function ends the program with a signal. A board receives an update and starts it; power
 * is lost once, at each operation of a chip, in four ways. After each loss the old or the new image starts, whole. The output must be the
 * same for both kinds of flash. */
#define _DEFAULT_SOURCE
#include <sys/mman.h>

#include "dfu_home.h"
#include "dfu_install.h"
#include "dfu_trial.h"
#include "nor.h"

enum { TRANSFER = 100, CAPACITY = 4096, TRIES = 4 };
enum { SLOTS, AREA };
static struct dfu_config config = {.version = DFU_VERSION, .device = 0x0100, .product = 1, .vendor = 0x1209, .detach_ms = 20,
                                   .transfer = TRANSFER, .attributes = 7, .least = 1};
static uint8_t block[DFU_BLOCK_SIZE(TRANSFER, 256)], out[TRANSFER], images[2][1500];
static const uint32_t lengths[2] = {1300, 1401};
static uint32_t sum, updated, kept;
static long lives;
static const struct dfu_driver slots_driver = {&chips[SLOTS], nor_erase, nor_program}, area_driver = {&chips[AREA], nor_erase, nor_program};
static struct dfu_device device = {.config = &config, .block = block, .most = sizeof block, .driver = &slots_driver};
static struct dfu_trial trial = {.driver = &slots_driver};
static struct dfu_install install = {.driver = &area_driver};

static void note(int32_t n, const uint8_t *bytes, size_t count) {
    sum = sum * 16777619u ^ (uint32_t)n;
    for (size_t i = 0; i < count; i++)
        sum = sum * 16777619u ^ bytes[i];
}
static void expect(const char *what, int holds) {
    if (!holds) {
        printf("unit %u, sector %u, the power goes at operation %ld, tear %d: ", (unsigned)config.unit, (unsigned)config.sector,
               power_goes_at, tear);
        stop(what);
    }
}
static int which(const uint8_t *bytes, uint32_t length) {
    for (int i = 0; i < 2; i++)
        if (length == lengths[i] && memcmp(bytes, images[i], length) == 0)
            return i;
    return -1;
}

/* Makes a request to the bootloader, which calls dfu_trial_transfer first if there are trials. */
static int32_t request(int has_trials, uint8_t kind, uint8_t what, uint16_t value, uint16_t length, const uint8_t *body) {
    const uint8_t setup[8] = {kind, what, (uint8_t)value, (uint8_t)(value >> 8), 0, 0, (uint8_t)length, (uint8_t)(length >> 8)};
    int32_t n = has_trials ? dfu_trial_transfer(&trial, &device, setup) : 0;
    if (n == 0)
        n = dfu_device_serve(&device, setup, body, out, sizeof out);
    note(n, out, n > 0 ? (size_t)n : 0);
    note(dfu_device_work(&device), NULL, 0);
    return n;
}
/* Downloads the new image. Returns the final state, which is dfuIDLE if the image is active. */
static int32_t download(int has_trials) {
    uint16_t number = 0;
    expect("it begins", dfu_device_begin(&device) == 0);
    for (uint32_t at = 0; at < lengths[1]; at += TRANSFER) {
        const uint16_t some = (uint16_t)(lengths[1] - at < TRANSFER ? lengths[1] - at : TRANSFER);
        request(has_trials, 0x21, DFU_DNLOAD, number++, some, images[1] + at);
        request(has_trials, 0xa1, DFU_GETSTATUS, 0, 6, NULL);
    }
    request(has_trials, 0x21, DFU_DNLOAD, number, 0, NULL);
    request(has_trials, 0xa1, DFU_GETSTATUS, 0, 6, NULL);
    request(has_trials, 0xa1, DFU_GETSTATUS, 0, 6, NULL);
    return dfu_device_state(&device);
}

/* Starts with a run area and trials: the image is copied to the run area before its start is marked. */
static int start_of_trial(void) {
    struct dfu_standing standing;
    struct dfu_place place;
    int image;
    install.area.last = DFU_NOWHERE;
    expect("a look", dfu_trial_look(&trial, &standing) == 0);
    expect("the run area", dfu_install_settle(&install, device.flash + standing.active.at, standing.active.length) == 0);
    expect("a start", dfu_trial_boot_from(&trial, &standing, &place) == 0);
    if (place.at != standing.active.at)
        expect("the other one", dfu_install_settle(&install, device.flash + place.at, place.length) == 0);
    image = which(chips[AREA].cells, place.length);
    expect("the run area has an image, whole", image >= 0 && which(chips[SLOTS].cells + place.at, place.length) == image);
    note((int32_t)standing.left, chips[SLOTS].cells, device.size), note(image, chips[AREA].cells, install.size);
    if (image == 1)
        expect("it confirms itself", dfu_trial_accept(&trial, place.at) == 0);
    return image;
}
/* Starts with two areas: the image is copied to the first slot. */
static int start_at_home(void) {
    struct dfu_place place = {0, 0};
    int image;
    expect("it settles", dfu_home_settle(&device, &place) == 0);
    expect("in the first slot", place.at == DFU_HOME_AT(config.unit, config.sector) && dfu_home_may_download(&device) == 1);
    image = which(chips[SLOTS].cells + place.at, place.length);
    expect("the first slot has an image, whole", image >= 0);
    note(image, chips[SLOTS].cells, device.size);
    return image;
}

/* Updates a board that has the old image, with this loss of power. Returns the number of operations. */
static long life(int has_trials, long cut, int how) {
    volatile int is_offered = 0;
    int image;
    for (int i = 0; i < CHIPS; i++)
        memset(chips[i].cells, 0xff, CHIP);
    power_goes_at = NEVER;
    expect("a format", (has_trials ? dfu_trial_format(&trial, &device, images[0], lengths[0])
                                   : dfu_device_format(&device, images[0], lengths[0])) == 0);
    operations = 0, power_goes_at = cut, tear = how, dice = 1;
    lives++;
    if (setjmp(power))
        power_goes_at = NEVER;
    image = has_trials ? start_of_trial() : start_at_home();
    if (!is_offered) {
        is_offered = 1;
        expect("the old image at first", image == 0);
        expect("a download", download(has_trials) == DFU_STATE_IDLE);
        image = has_trials ? start_of_trial() : start_at_home();
    }
    expect("the new one if the power stays", cut >= 0 || image == 1);
    updated += image == 1, kept += image == 0;
    return operations;
}
static void try_part(int has_trials, uint32_t unit, uint32_t sector) {
    long all;
    config.unit = unit, config.sector = chips[SLOTS].sector = sector;
    device.size = trial.size = DFU_MEDIUM_SIZE(unit, sector, CAPACITY);
    trial.tries = (struct dfu_tries){unit, sector, sector / (unit < 16 ? 16 : unit) < TRIES + 2 ? 2 : TRIES};
    chips[AREA].sector = install.area.sector = sector == 256 ? 1024 : 256;
    install.size = CAPACITY;
    sum = updated = kept = 0;
    all = life(has_trials, NEVER, 0);
    for (long cut = 0; cut < all; cut++)
        for (int how = 0; how < TEARS; how++)
            life(has_trials, cut, how);
    printf("%s, unit %u, sector %u: %ld operations, %u updated, %u not, sum %08x\n", has_trials ? "trial" : "home", (unsigned)unit,
           (unsigned)sector, all, (unsigned)updated, (unsigned)kept, (unsigned)sum);
    expect("some of both", updated > 0 && kept > 0);
}
/* With a driver that does not split programs at pages, the read-back finds other bytes, the download is refused, and the old image stays.
 */
static void try_driver_that_wraps(void) {
    struct dfu_place place = {0, 0};
    config.unit = 16, config.sector = chips[SLOTS].sector = 256;
    device.size = DFU_MEDIUM_SIZE(16, 256, CAPACITY);
    memset(chips[SLOTS].cells, 0xff, CHIP);
    power_goes_at = NEVER;
    expect("a format", dfu_device_format(&device, images[0], lengths[0]) == 0);
    splits = 0;
    expect("a download that wraps", download(0) == DFU_STATE_ERROR);
    splits = 1;
    expect("the old image stays", dfu_device_image(&device, &place) == 0 && which(chips[SLOTS].cells + place.at, place.length) == 0);
}

int main(void) {
    for (int i = 0; i < 2; i++)
        for (uint32_t k = 0; k < sizeof images[i]; k++)
            images[i][k] = (uint8_t)roll(256);
    for (int i = 0; i < CHIPS; i++) {
        chips[i].front = chips[i].cells;
#ifdef DFU_READ
        chips[i].front = mmap(NULL, CHIP, PROT_NONE, MAP_PRIVATE | MAP_ANONYMOUS, -1, 0);
        if (chips[i].front == MAP_FAILED)
            stop("no memory");
#endif
    }
    device.flash = trial.flash = chips[SLOTS].front, install.run = chips[AREA].front;
    for (int has_trials = 0; has_trials < 2; has_trials++) {
        try_part(has_trials, 1, 256), try_part(has_trials, 16, 256), try_part(has_trials, 64, 512), try_part(has_trials, 256, 4096);
    }
    try_driver_that_wraps();
    printf("%ld lives, %ld programs that cross a page\n", lives, crossings);
    expect("programs that cross a page", crossings > 0);
    fprintf(stderr, "%ld reads by the program's function\n", reads);
    return 0;
}
