/* Runs updates on trial on parts with unequal or large sectors, with a run area, by the library in C over the translation of dfu_places.h.
 * Power is lost in each operation of the device, of the marks and ends of trials, and of the copy to the run area, and after each such loss
 * in later operations again. The old or the new image must run, whole in the run area; at the end one of them must be active, whole at the
 * address of its data. An image that confirms itself stays; one that never does starts at most TRIES times, and then the old one runs
 * again. model.c checks each operation on the slots against the rules of a placement; only marks may touch the slot of the confirmed image.
 *
 *     trials STEP tries every STEP-th second cut */
#include "model.h"
#include <stdio.h>
#include <stdlib.h>
#include <string.h>
#include "dfu_install.h"
#include "dfu_trial.h"

enum { BLOCK = 512, VIRTUAL = 2048 * KIB, IMAGES = 3, TRIES = 3, ROOM = 1024 };
DFU_PLACEMENT(h743_three, 131072, 393216, UNIT, 0x08000000, 32768,
              0x08020000, 131072, 0x08040000, 131072, 0x080a0000,
              0x08060000, 131072, 0x08080000, 131072, 0x08100000);
static const struct trial_part {
    struct part part;
    uint32_t run; /* address of the run area, which is as large as the data of a slot */
} TRIALS[] = {
    {{"STM32F746", {{0x08000000, 32 * KIB, 4}, {0x08020000, 128 * KIB, 1}, {0x08040000, 256 * KIB, 3}}, &f746, 256}, 0x080c0000},
    {{"STM32H743", {{0x08000000, 128 * KIB, 16}, {0, 0, 0}, {0, 0, 0}}, &h743_three, 384}, 0x08160000},
};
static uint8_t block[DFU_BLOCK_SIZE(BLOCK, UNIT)], data[BLOCK], images[IMAGES][ROOM], view[VIRTUAL], run_before[512 * KIB];
static const uint32_t lengths[IMAGES] = {900, 700, 1000};
static struct dfu_config config = {.version = DFU_VERSION, .vendor = 1, .product = 1, .device = 1, .detach_ms = 1000, .transfer = BLOCK,
                                   .attributes = DFU_CAN_DNLOAD | DFU_CAN_UPLOAD | DFU_MANIFESTATION_TOLERANT, .least = 8, .unit = UNIT};
static unsigned long lives, olds, news;
static long runs; /* starts of the new image in this life */

/* Carries out an operation on the run area, or of a mark. The rules of the placement do not apply to these. */
static void carry_out(uint8_t *to, const uint8_t *bytes, uint32_t length) {
    int tear = -1;
    model_operations++;
    for (int i = 0; i < 2; i++)
        if (model_operations == model_cut[i])
            tear = model_tear[i];
    if (tear < 0 && bytes == NULL)
        memset(to, 0xff, length);
    for (uint32_t i = 0; i < length && tear != 0 && (tear > 0 || bytes != NULL); i++)
        if (tear != 1 || i < length / 2)
            to[i] = tear == 2 ? (uint8_t)(i * 37 + (uint32_t)model_operations * 11) : tear == 4 ? 0xa5 : bytes != NULL ? bytes[i] : 0xff;
    if (tear >= 0)
        longjmp(model_off, 1);
}
static int mark_program(void *own, uint32_t at, const uint8_t *bytes, uint32_t length) {
    const uint8_t *const there = model_at(at);
    (void)own;
    model_expect("a mark is a unit", length == UNIT && at % UNIT == 0);
    for (uint32_t i = 0; i < length; i++)
        model_expect("a mark is programmed where all is blank", there[i] == 0xff);
    carry_out(model_bytes + (there - model_bytes), bytes, length);
    return 0;
}
static int no_erase(void *own, uint32_t at, uint32_t length) {
    (void)own, (void)at, (void)length;
    return 1;
}
static const struct dfu_driver marks_part = {NULL, no_erase, mark_program};
static struct dfu_places places = {NULL, &model}, marks = {NULL, &marks_part};

/* Updates the library's view after the part changed. */
static void see(uint32_t at, uint32_t length) {
    dfu_places_read(places.placement, at, view + at, length, model_read);
}
static int slots_erase(void *own, uint32_t at, uint32_t length) {
    const int failed = dfu_places_erase(own, at, length);
    see(at, length);
    return failed;
}
static int slots_program(void *own, uint32_t at, const uint8_t *bytes, uint32_t length) {
    const struct dfu_spot spot = dfu_places_spot(places.placement, at);
    const int is_mark = spot.thing % 3 == 1 && spot.offset >= UNIT;
    const int failed = dfu_places_program(is_mark ? &marks : own, at, bytes, length);
    see(at, length);
    return failed;
}
static const struct dfu_driver driver = {&places, slots_erase, slots_program};
static struct dfu_device dfu = {.config = &config, .flash = view, .block = block, .most = sizeof block, .driver = &driver};
static struct dfu_trial trial = {.flash = view, .driver = &driver, .tries = {UNIT, 0, TRIES}};

static int run_erase(void *own, uint32_t at, uint32_t length) {
    carry_out((uint8_t *)own + at, NULL, length);
    return 0;
}
static int run_program(void *own, uint32_t at, const uint8_t *bytes, uint32_t length) {
    for (uint32_t i = 0; i < length; i++)
        model_expect("a byte of the run area is programmed that is not blank", ((uint8_t *)own)[at + i] == 0xff);
    carry_out((uint8_t *)own + at, bytes, length);
    return 0;
}
static struct dfu_driver run_driver = {NULL, run_erase, run_program};
static struct dfu_install install = {.driver = &run_driver};

static uint32_t half(void) {
    return (uint32_t)dfu.size / 2;
}
/* Returns the image at the address of a slot's data, taken from the table of the part. If the image runs, the run area must hold it too. */
static int which(const struct dfu_place *place, int is_running) {
    const struct dfu_span *there = &places.placement->things[place->at < half() ? DFU_FIRST_DATA : DFU_SECOND_DATA];
    for (int i = 0; i < IMAGES; i++)
        if (place->length == lengths[i] && memcmp(model_at(there->at), images[i], lengths[i]) == 0 &&
            (!is_running || memcmp(install.run, images[i], lengths[i]) == 0))
            return i;
    return -1;
}
static int32_t request(uint8_t type, uint8_t what, uint16_t value, uint16_t length) {
    const uint8_t setup[8] = {type, what, (uint8_t)value, (uint8_t)(value >> 8), 0, 0, (uint8_t)length, (uint8_t)(length >> 8)};
    const int32_t n = dfu_trial_transfer(&trial, &dfu, setup);
    return n != 0 ? DFU_STALL : dfu_device_serve(&dfu, setup, data, data, sizeof data);
}
static void download(int image) {
    uint16_t number = 0;
    model_expect("begin", dfu_device_begin(&dfu) == 0);
    for (uint32_t at = 0; at < lengths[image]; at += BLOCK, number++) {
        const uint32_t some = lengths[image] - at < BLOCK ? lengths[image] - at : BLOCK;
        memcpy(data, images[image] + at, some);
        model_expect("a block", request(0x21, DFU_DNLOAD, number, (uint16_t)some) == 0);
        model_expect("its status", request(0xa1, DFU_GETSTATUS, 0, 6) == 6 && data[4] == DFU_STATE_DNLOAD_IDLE);
    }
    model_expect("the close", request(0x21, DFU_DNLOAD, number, 0) == 0);
    model_active = -1;
    model_expect("in place", request(0xa1, DFU_GETSTATUS, 0, 6) == 6 && data[4] == DFU_STATE_IDLE);
}
static int settles(const struct dfu_place *place) {
    return dfu_install_settle(&install, view + place->at, place->length) == 0;
}
/* Starts the bootloader like the listing of docs/PORTING.md. Returns the image that runs, with its place. */
static int start(struct dfu_place *place) {
    struct dfu_standing standing;
    int image;
    model_forget();
    install.area.last = DFU_NOWHERE;
    see(0, (uint32_t)dfu.size);
    model_active = -1;
    model_expect("an image is active", dfu_trial_look(&trial, &standing) == 0);
    model_active = standing.base.at < half() ? 0 : 1;
    model_expect("both are whole", which(&standing.active, 0) >= 0 && which(&standing.base, 0) >= 0);
    model_expect("it settles", settles(&standing.active));
    model_expect("the start", dfu_trial_boot_from(&trial, &standing, place) == 0);
    model_expect("it settles too", place->at == standing.active.at || settles(place));
    image = which(place, 1);
    model_expect("what runs is whole", image >= 0);
    runs += image == 1;
    return image;
}
/* Installs image 1 on trial over the confirmed image 0, with these cuts. Image 1 confirms itself, or hangs. Returns the number of
 * operations. */
static long life(int confirms, long first, int first_tear, long second, int second_tear) {
    struct dfu_place place;
    volatile int taken = 0;
    int image;
    lives++;
    model_cut[0] = model_cut[1] = 0;
    model_active = -1;
    see(0, (uint32_t)dfu.size);
    model_forget();
    model_expect("a format", dfu_trial_format(&trial, &dfu, images[0], lengths[0]) == 0);
    model_operations = runs = 0;
    model_cut[0] = first, model_tear[0] = first_tear, model_cut[1] = second, model_tear[1] = second_tear;
    setjmp(model_off);
    if (!taken) {
        taken = 1;
        model_expect("the first image starts", start(&place) == 0);
        download(1);
    }
    for (image = start(&place); image == 1 && !confirms && runs <= TRIES;)
        image = start(&place);
    if (image == 1 && confirms)
        model_expect("it confirms itself", dfu_trial_accept(&trial, place.at) == 0);
    model_expect("the old or the new image starts", image == 0 || image == 1);
    model_expect("without a cut one that confirms itself", first > 0 || image == confirms);
    model_expect("one that hangs starts so often at most", confirms || (image == 0 && runs <= TRIES));
    model_expect("the next start is of the same one", image == 0 || start(&place) == 1);
    image == 0 ? olds++ : news++;
    return model_operations;
}
static void with_second_cuts(int confirms, long step) {
    const long all = life(confirms, 0, 0, 0, 0);
    long number = 0;
    for (long first = 1; first <= all; first++)
        for (int tear = 0; tear < TEARS; tear++) {
            const long then = life(confirms, first, tear, 0, 0);
            for (long second = first + 1; second <= then; second++)
                for (int again = 0; again < TEARS; again++)
                    if (number++ % step == 0)
                        life(confirms, first, tear, second, again);
        }
}
static void try_part(const struct trial_part *it, long step) {
    const struct dfu_placement *p = places.placement = marks.placement = it->part.placement;
    struct dfu_place place;
    model_begin(&it->part);
    config.sector = trial.tries.sector = install.area.sector = p->sector;
    dfu.size = trial.size = DFU_PLACES_SIZE(p->sector, p->capacity);
    run_driver.own = model_bytes + (model_at(it->run) - model_bytes);
    install.run = model_at(it->run);
    install.size = p->capacity;
    memcpy(run_before, install.run, p->capacity);
    lives = olds = news = 0;
    for (int confirms = 0; confirms < 2; confirms++)
        with_second_cuts(confirms, step);
    life(1, 0, 0, 0, 0);
    download(2);
    model_expect("a later update works", start(&place) == 2 && dfu_trial_accept(&trial, place.at) == 0 && start(&place) == 2);
    memcpy(run_driver.own, run_before, p->capacity);
    model_expect("the bootloader and the other sectors stay", model_rest_is_kept());
    printf("%s, on trial: %lu lives, of them with the old image %lu, with the new one %lu\n", it->part.name, lives, olds, news);
}
int main(int count, char **words) {
    const long step = count > 1 ? atol(words[1]) : 1;
    for (int i = 0; i < IMAGES; i++)
        for (uint32_t at = 0; at < sizeof images[i]; at++)
            images[i][at] = (uint8_t)(at * (uint32_t)(2 * i + 3) + at / 251 + (uint32_t)i);
    for (size_t i = 0; i < sizeof TRIALS / sizeof *TRIALS; i++)
        try_part(&TRIALS[i], step);
    return model_wrong() != 0;
}
