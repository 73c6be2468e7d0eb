/* Installs updates on parts with unequal sectors, by the library in C over the translation of dfu_places.h. Power is lost in each
 * operation, and after each such loss in later operations again. In every case the old or the new image must be active, whole, and at the
 * address of its data. model.c checks each operation against the rules of a placement.
 *
 *     lives STEP       tries every STEP-th second cut of a small update, and fewer cuts of an update of two virtual sectors, and of one as
 *                      large as the data
 *
 * With DFU_READ the device reads the part by a function, and there is no copy: an image may be active in either slot. Else a view of the
 * virtual flash is in memory, and dfu_home.h copies the image to the first slot. */
#include "model.h"
#include <stdio.h>
#include <stdlib.h>
#include <string.h>
#ifndef DFU_READ
#include "dfu_home.h"
#endif

enum { BLOCK = 4096, VIRTUAL = 3072 * KIB, IMAGES = 3, LEAST = 8 };
static uint8_t block[DFU_BLOCK_SIZE(BLOCK, UNIT)], data[BLOCK], images[IMAGES][1024 * KIB];
static uint32_t lengths[IMAGES];
static struct dfu_config config = {.version = DFU_VERSION, .vendor = 1, .product = 1, .device = 1, .detach_ms = 1000, .transfer = BLOCK,
                                   .attributes = DFU_CAN_DNLOAD | DFU_CAN_UPLOAD | DFU_MANIFESTATION_TOLERANT, .least = LEAST,
                                   .unit = UNIT};
static struct dfu_places places = {NULL, &model};
static unsigned long lives, olds, news;

#ifdef DFU_READ
static const struct dfu_driver driver = DFU_PLACES_DRIVER(&places);
static uint8_t nobody[1];
static struct dfu_device dfu = {.config = &config, .flash = nobody, .block = block, .most = sizeof block, .driver = &driver};
void DFU_READ(const unsigned char *from, unsigned char *to, size_t count);
void DFU_READ(const unsigned char *from, unsigned char *to, size_t count) {
    dfu_places_read(places.placement, (uint32_t)((uintptr_t)from - (uintptr_t)nobody), to, count, model_read);
}
static void see(uint32_t at, uint32_t length) {
    (void)at, (void)length;
}
static int32_t settle(struct dfu_place *place) {
    const int32_t n = dfu_device_power_on(&dfu);
    return n != 0 ? n : dfu_device_image(&dfu, place);
}
#else
static uint8_t view[VIRTUAL];
/* Updates the library's view after the part changed. */
static void see(uint32_t at, uint32_t length) {
    dfu_places_read(places.placement, at, view + at, length, model_read);
}
static int erase_and_see(void *own, uint32_t at, uint32_t length) {
    const int failed = dfu_places_erase(own, at, length);
    see(at, length);
    return failed;
}
static int program_and_see(void *own, uint32_t at, const uint8_t *bytes, uint32_t length) {
    const int failed = dfu_places_program(own, at, bytes, length);
    see(at, length);
    return failed;
}
static const struct dfu_driver driver = {&places, erase_and_see, program_and_see};
static struct dfu_device dfu = {.config = &config, .flash = view, .block = block, .most = sizeof block, .driver = &driver};
static int32_t settle(struct dfu_place *place) {
    const int32_t n = dfu_home_settle(&dfu, place);
    model_expect("it is in the first slot", n != 0 || place->at == 2 * config.sector);
    return n;
}
#endif

static uint32_t half(void) {
    return (uint32_t)dfu.size / 2;
}
static void find_active(void) {
    struct dfu_place place;
    model_active = dfu_device_image(&dfu, &place) != 0 ? -1 : place.at < half() ? 0 : 1;
}
/* Returns the image at the address of a slot's data, taken from the table of the part. */
static int which(const struct dfu_place *place) {
    const struct dfu_span *there = &places.placement->things[place->at < half() ? DFU_FIRST_DATA : DFU_SECOND_DATA];
    for (int i = 0; i < IMAGES; i++)
        if (place->length == lengths[i] && memcmp(model_at(there->at), images[i], lengths[i]) == 0)
            return i;
    return -1;
}
static int32_t request(uint8_t type, uint8_t what, uint16_t value, uint16_t length) {
    const uint8_t setup[8] = {type, what, (uint8_t)value, (uint8_t)(value >> 8), 0, 0, (uint8_t)length, (uint8_t)(length >> 8)};
    return dfu_device_serve(&dfu, setup, data, data, sizeof data);
}
static void download(int image) {
    uint16_t number = 0;
    find_active();
    model_expect("begin", dfu_device_begin(&dfu) == 0);
    for (uint32_t at = 0; at < lengths[image]; at += BLOCK, number++) {
        const uint32_t some = lengths[image] - at < BLOCK ? lengths[image] - at : BLOCK;
        memcpy(data, images[image] + at, some);
        model_expect("a block", request(0x21, DFU_DNLOAD, number, (uint16_t)some) == 0);
        model_expect("its status", request(0xa1, DFU_GETSTATUS, 0, 6) == 6 && data[4] == DFU_STATE_DNLOAD_IDLE);
    }
    model_expect("the close", request(0x21, DFU_DNLOAD, number, 0) == 0);
    model_expect("in place", request(0xa1, DFU_GETSTATUS, 0, 6) == 6 && data[4] == DFU_STATE_IDLE);
}
/* Starts the bootloader. Returns the image that it starts. */
static int start(void) {
    struct dfu_place before, place;
    int image;
    model_forget();
    see(0, (uint32_t)dfu.size);
    find_active();
    model_expect("an image is active", dfu_device_image(&dfu, &before) == 0);
    image = which(&before);
    model_expect("it is whole", image >= 0);
    model_expect("it settles", settle(&place) == 0);
    model_expect("the same image starts", which(&place) == image);
    return image;
}
/* Installs image 1 over image 0 with these cuts. After that one of the two must start, whole. Returns the number of operations. */
static long life(long first, int first_tear, long second, int second_tear) {
    volatile int taken = 0;
    int image;
    long all;
    lives++;
    model_cut[0] = model_cut[1] = 0;
    model_active = -1;
    see(0, (uint32_t)dfu.size);
    model_forget();
    model_expect("a format", dfu_device_format(&dfu, images[0], lengths[0]) == 0);
    model_operations = 0;
    model_cut[0] = first, model_tear[0] = first_tear, model_cut[1] = second, model_tear[1] = second_tear;
    setjmp(model_off);
    if (!taken) {
        taken = 1;
        model_expect("the first image starts", start() == 0);
        download(1);
    }
    image = start();
    all = model_operations;
    model_expect("the old or the new image starts", image == 0 || image == 1);
    model_expect("without a cut the new one", first > 0 || image == 1);
    image == 0 ? olds++ : news++;
    return all;
}
static void with_second_cuts(long step) {
    const long all = life(0, 0, 0, 0);
    long number = 0;
    for (long first = 1; first <= all; first++)
        for (int tear = 0; tear < TEARS; tear++) {
            const long then = life(first, tear, 0, 0);
            for (long second = first + 1; second <= then; second++)
                for (int again = 0; again < TEARS; again++)
                    if (number++ % step == 0)
                        life(first, tear, second, again);
        }
    life(0, 0, 0, 0);
    download(2);
    model_expect("a later update works", start() == 2);
}
static void set_lengths(uint32_t old, uint32_t new, uint32_t later) {
    lengths[0] = old, lengths[1] = new, lengths[2] = later;
}
/* Tries `count` cuts of a larger update, at equal distances. */
static void with_cuts(long count) {
    const long all = life(0, 0, 0, 0);
    for (long i = 1; i <= count; i++)
        life(1 + (all - 1) * i / (count + 1), (int)(i % TEARS), 0, 0);
}
static void try_part(const struct part *part, long step) {
    const struct dfu_placement *p = places.placement = part->placement;
    model_begin(part);
    config.sector = p->sector;
    dfu.size = DFU_PLACES_SIZE(p->sector, p->capacity);
    lives = olds = news = 0;
    model_expect("its largest image", p->capacity == part->kib * KIB);
    see(0, (uint32_t)dfu.size);
    model_expect("the library takes the virtual sector", dfu_device_is_blank(&dfu) != DFU_NO_CONFIG);
    set_lengths(900, 700, 3000);
    with_second_cuts(step);
    if (p->capacity > p->sector) {
        set_lengths(p->sector + 900, p->sector + 3000, p->sector);
        with_cuts(step > 100 ? 5 : 20);
    }
    set_lengths(p->capacity, p->capacity, LEAST);
    with_cuts(step > 100 ? 0 : 2);
    model_expect("the bootloader and the other sectors stay", model_rest_is_kept());
    printf("%s: %lu lives, of them with the old image %lu, with the new one %lu\n", part->name, lives, olds, news);
}
int main(int count, char **words) {
    const long step = count > 1 ? atol(words[1]) : 1;
    for (int i = 0; i < IMAGES; i++)
        for (uint32_t at = 0; at < sizeof images[i]; at++)
            images[i][at] = (uint8_t)(at * (uint32_t)(2 * i + 3) + at / 251 + (uint32_t)i);
    for (size_t i = 0; i < sizeof PARTS / sizeof *PARTS; i++)
        try_part(&PARTS[i], step);
    return model_wrong() != 0;
}
