/* SPDX-License-Identifier: MIT OR Apache-2.0 */
/* A bootloader whose flash is memory: it starts, receives a download of one block, and starts again. -DHOME gives it two areas,
 * -DDFU_READ=read_flash makes it read the flash through a function, and -DPLACES adds a placement. With -DNONE it does nothing, so that the
 * difference in size is that of the library and its calls. It prints the stack depth below main. tests/bench/size/placements builds and
 * runs it. */
#include "../../lib/c/painted.h"
#include <stdio.h>

#include "dfu_device.h"
#if defined(HOME) || defined(IDLE)
#include "dfu_home.h"
#endif
#if defined(PLACES) || defined(IDLE)
#include "dfu_places.h"
#endif

enum { UNIT = 16, SECTOR = 1024, CAPACITY = 2048, BLOCK = 256, SIZE = 2 * (2 * SECTOR + CAPACITY) };
static const struct dfu_config config = {.version = DFU_VERSION,
                                         .vendor = 1,
                                         .product = 1,
                                         .detach_ms = 1000,
                                         .transfer = BLOCK,
                                         .attributes = DFU_CAN_DNLOAD | DFU_CAN_UPLOAD | DFU_MANIFESTATION_TOLERANT,
                                         .least = 1,
                                         .unit = UNIT,
                                         .sector = SECTOR};
static uint8_t flash[SIZE], block[DFU_BLOCK_SIZE(BLOCK, UNIT)], data[BLOCK];

int part_erase(void *own, uint32_t at, uint32_t length);
int part_program(void *own, uint32_t at, const uint8_t *bytes, uint32_t length);
void part_read(uint32_t at, uint8_t *to, size_t count);
int part_erase(void *own, uint32_t at, uint32_t length)
{
    (void)own;
    memset(flash + at, 0xff, length);
    return 0;
}
int part_program(void *own, uint32_t at, const uint8_t *bytes, uint32_t length)
{
    (void)own;
    memcpy(flash + at, bytes, length);
    return 0;
}
void part_read(uint32_t at, uint8_t *to, size_t count)
{
    memcpy(to, flash + at, count);
}

#ifdef PLACES
DFU_PLACEMENT(places, SECTOR, CAPACITY, UNIT, SIZE, 1024, 0, 1024, 1024, 1024, 4096, 2048, 1024, 3072, 1024, 6144);
static const struct dfu_driver part = {NULL, part_erase, part_program};
static const struct dfu_places map = {&places, &part};
static const struct dfu_driver driver = DFU_PLACES_DRIVER(&map);
#else
static const struct dfu_driver driver = {NULL, part_erase, part_program};
#endif
#ifdef DFU_READ
#define FRONT ((const uint8_t *)0x90000000u)
void DFU_READ(const unsigned char *from, unsigned char *to, size_t count);
void DFU_READ(const unsigned char *from, unsigned char *to, size_t count)
{
#ifdef PLACES
    dfu_places_read(&places, (uint32_t)(from - FRONT), to, count, part_read);
#else
    part_read((uint32_t)(from - FRONT), to, count);
#endif
}
#else
#define FRONT flash
#endif
#ifndef NONE
static struct dfu_device dfu = {.config = &config, .flash = FRONT, .size = SIZE, .block = block, .most = sizeof block, .driver = &driver};
static struct dfu_place place;

static int serve(uint8_t kind, uint8_t request, uint8_t low, uint8_t high)
{
    const uint8_t setup[8] = {kind, request, 0, 0, 0, 0, low, high};
#ifdef HOME
    if (dfu_home_transfer(&dfu, setup) != 0)
        return DFU_STALL;
#endif
    return dfu_device_serve(&dfu, setup, data, data, sizeof data);
}
static int start(void)
{
#ifdef HOME
    return dfu_home_settle(&dfu, &place);
#else
    return dfu_device_image(&dfu, &place);
#endif
}
static int boot(void)
{
    return dfu_device_power_on_or_format(&dfu, data, 8) == 0 && start() == 0 && dfu_device_begin(&dfu) == 0
           && serve(0x21, DFU_DNLOAD, 0, 1) == 0 && serve(0xa1, DFU_GETSTATUS, 6, 0) == 6 && serve(0x21, DFU_DNLOAD, 0, 0) == 0
           && serve(0xa1, DFU_GETSTATUS, 6, 0) == 6 && dfu_device_reset(&dfu) == 0 && start() == 0 && place.length == BLOCK;
}
#endif

static void *run(void *word)
{
    int *const call = word;
#ifndef NONE
    if (*call == 1)
        *call = boot() ? 2 : 0;
#else
    *call = *call == 1 ? 2 : *call + (int)sizeof config + (int)sizeof block + (driver.own != NULL);
#endif
    return word;
}

int main(void)
{
    int none = 3, call = 1;
    memset(flash, 0xff, sizeof flash);
    const size_t empty = touched(run, &none), deep = touched(run, &call);
    printf("%zu\n", deep - empty);
    return call != 2;
}
