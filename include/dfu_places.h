/* SPDX-License-Identifier: MIT OR Apache-2.0 */
/**
 * @file dfu_places.h
 * @brief Slots on a part with unequal sectors, or on two parts: a driver for dfu_device.h and dfu_home.h that translates offsets to
 * addresses.
 *
 * The library works on a *virtual* flash, whose sectors all have the same size: for each slot a sector for the gate, one for the header,
 * and the data. A placement gives the address on the part of each of these six "things" (enum dfu_thing). Gates and headers may use small
 * sectors, because only their first bytes are used: the rest of their virtual sectors reads FFh. A virtual sector of data is one sector of
 * the part, or several that are as large together.
 *
 *     // STM32F407: images of up to 384 KiB in two areas. Sectors: 4 of 16 KiB (2 of the bootloader), 1 of 64, 7 of 128
 *     DFU_PLACEMENT(places, 131072, 393216, 16,
 *                   0x08000000, 32768,                                                    // the bootloader
 *                   0x08008000, 16384, 0x0800c000,  16384, 0x08040000,                    // first slot: gate, header, data
 *                   0x08010000, 65536, 0x08020000, 131072, 0x080a0000);                   // second slot
 *     static const struct dfu_driver part = {NULL, part_erase, part_program};              // your functions, with addresses of the part
 *     static const struct dfu_places map = {&places, &part};
 *     static const struct dfu_driver driver = DFU_PLACES_DRIVER(&map);                      // for struct dfu_device
 *     static const struct dfu_config config = {.sector = 131072, ..};                       // the virtual sector
 *     struct dfu_device dfu = {.flash = (const uint8_t *)0x90000000, .size = DFU_PLACES_SIZE(131072, 393216), .driver = &driver, ..};
 *
 *     void read_part(const unsigned char *from, unsigned char *to, size_t count) {           // with -DDFU_READ=read_part
 *         dfu_places_read(&places, (uint32_t)(from - dfu.flash), to, count, part_read);
 *     }
 *
 * part_erase receives the address and the length in bytes of one or more sectors of the part, all of one size, and erases each of them.
 * part_program receives bytes that lie in one of the six things. part_read copies bytes from an address of the part.
 *
 * - DFU_READ is needed even on a part that is mapped, because the virtual flash is not contiguous on it: dfu.flash is any address but 0
 *   (dfu_device.h, RULES). No code may read dfu.flash[place.at]: an image begins at the address places.things[DFU_FIRST_DATA].at, or that
 *   of DFU_SECOND_DATA.
 * - In two areas images are linked for the first data, 0x08040000 here, and start there. A program's driver that protects the first slot
 *   returns 1 if the virtual `at` is less than DFU_PLACES_SIZE(..) / 2, before it calls dfu_places_erase or dfu_places_program.
 * - `dfu plan` prints the table for a unit of 256, so gates and headers have room for any unit; config.unit stays that of the part.
 * - The compiler checks the table: the six things overlap neither each other nor the bootloader, data are whole virtual sectors, and gates
 *   and headers have room for a unit. It does not check the sectors of the part: each thing, and each virtual sector of data, must begin
 *   and end at the border of a sector. The crate dfu_places checks that too, and `dfu plan` prints such a table.
 * - With trials, marks follow the header, so a header's range has (tries + 2) units of at least 16 bytes.
 * - A later bootloader must keep the placement, because it determines the addresses of the images.
 *
 * Proved of the crate dfu_places in Rattle: on a placement that `check` accepts, the translation is one to one, and an erase of a virtual
 * sector erases whole sectors of the part that no other virtual sector uses. This header implements the same in C, and is only tested.
 */
#ifndef DFU_PLACES_H
#define DFU_PLACES_H

#include "dfu_device.h"
#include <string.h>

#if defined(__clang__) && defined(__has_warning)
#pragma clang diagnostic push
#if __has_warning("-Wunsafe-buffer-usage")
#pragma clang diagnostic ignored "-Wunsafe-buffer-usage"
#endif
#endif

#ifdef __cplusplus
#define DFU_PLACES_ASSERT static_assert
extern "C" {
#else
#define DFU_PLACES_ASSERT _Static_assert
#endif

/** @brief Gates, headers and data of both slots, in the order of struct dfu_placement. */
enum dfu_thing {
    DFU_FIRST_GATE = 0,
    DFU_FIRST_HEADER = 1,
    DFU_FIRST_DATA = 2,
    DFU_SECOND_GATE = 3,
    DFU_SECOND_HEADER = 4,
    DFU_SECOND_DATA = 5
};

/** @brief Range of bytes on a part. */
struct dfu_span {
    uint32_t at;     /**< address of the first byte */
    uint32_t length; /**< number of bytes */
};

/** @brief A placement; DFU_PLACEMENT makes one. */
struct dfu_placement {
    uint32_t sector;           /**< bytes of a virtual sector: dfu_config.sector */
    uint32_t capacity;         /**< bytes of data of a slot */
    struct dfu_span things[6]; /**< enum dfu_thing */
};

/** @brief A placement and the driver of its part, for DFU_PLACES_DRIVER. It must live as long as the driver. */
struct dfu_places {
    const struct dfu_placement *placement;
    const struct dfu_driver *part;
};

/** @brief Bytes of the virtual flash, for dfu_device.size. */
#define DFU_PLACES_SIZE(sector, capacity) (2 * (2 * (sector) + (capacity)))

/** @brief Initializer of a struct dfu_driver for the virtual flash, from a pointer to a struct dfu_places. */
#define DFU_PLACES_DRIVER(places) {(void *)(places), dfu_places_erase, dfu_places_program}

/* Private: true if n bytes at a don't overlap m bytes at b, nor any of the ranges that follow. */
#define DFU_APART(a, n, b, m) ((a) + DFU_TO(uint64_t, n) <= (b) || (b) + DFU_TO(uint64_t, m) <= (a))
#define DFU_APART_2(a, n, b, m, ...) (DFU_APART(a, n, b, m) && DFU_APART(a, n, __VA_ARGS__))
#define DFU_APART_3(a, n, b, m, ...) (DFU_APART(a, n, b, m) && DFU_APART_2(a, n, __VA_ARGS__))
#define DFU_APART_4(a, n, b, m, ...) (DFU_APART(a, n, b, m) && DFU_APART_3(a, n, __VA_ARGS__))
#define DFU_APART_5(a, n, b, m, ...) (DFU_APART(a, n, b, m) && DFU_APART_4(a, n, __VA_ARGS__))
#define DFU_APART_6(a, n, b, m, ...) (DFU_APART(a, n, b, m) && DFU_APART_5(a, n, __VA_ARGS__))

/** @brief Defines a static const struct dfu_placement of this name, and checks it at compile time.
 * @param sector, capacity bytes of a virtual sector, and of the data of one slot
 * @param unit dfu_config.unit
 * @param boot, bn address and bytes of the bootloader
 * @param g, gn, h, hn, d address and bytes of the first gate and of the first header, and the address of the first data
 * @param i, in, j, jn, e likewise for the second slot */
#define DFU_PLACEMENT(name, sector, capacity, unit, boot, bn, g, gn, h, hn, d, i, in, j, jn, e)                                           \
    DFU_PLACES_ASSERT((sector) % 256 == 0 && (sector) > 0, "a virtual sector is a multiple of 256 bytes");                                \
    DFU_PLACES_ASSERT((capacity) > 0 && (capacity) % (sector) == 0, "the data are whole virtual sectors");                                \
    DFU_PLACES_ASSERT((gn) >= 16 && (hn) >= 16 && (in) >= 16 && (jn) >= 16, "gates and headers have 16 bytes");                           \
    DFU_PLACES_ASSERT((gn) >= (unit) && (hn) >= (unit) && (in) >= (unit) && (jn) >= (unit), "gates and headers have a unit");             \
    DFU_PLACES_ASSERT(DFU_APART_6(boot, bn, g, gn, h, hn, d, capacity, i, in, j, jn, e, capacity), "nothing lies in the bootloader");     \
    DFU_PLACES_ASSERT(DFU_APART_5(g, gn, h, hn, d, capacity, i, in, j, jn, e, capacity), "the first gate shares no byte");                \
    DFU_PLACES_ASSERT(DFU_APART_4(h, hn, d, capacity, i, in, j, jn, e, capacity), "the first header shares no byte");                     \
    DFU_PLACES_ASSERT(DFU_APART_3(d, capacity, i, in, j, jn, e, capacity), "the first data share no byte");                               \
    DFU_PLACES_ASSERT(DFU_APART_2(i, in, j, jn, e, capacity), "the second gate shares no byte");                                          \
    DFU_PLACES_ASSERT(DFU_APART(j, jn, e, capacity), "the second header shares no byte");                                                 \
    static const struct dfu_placement name = {sector, capacity, {{g, gn}, {h, hn}, {d, capacity}, {i, in}, {j, jn}, {e, capacity}}}

/** @brief Location of a virtual byte: a gate, a header or data, and an offset in it. */
struct dfu_spot {
    uint32_t thing;  /**< enum dfu_thing */
    uint32_t offset; /**< in bytes; beyond the second data if the byte is beyond the virtual flash */
};

/** @brief Returns the location of the virtual byte at offset `at`. */
static inline struct dfu_spot dfu_places_spot(const struct dfu_placement *p, uint32_t at) {
    const uint32_t slot = 2 * p->sector + p->capacity, first = at < slot ? 0 : 3, within = at < slot ? at : at - slot;
    struct dfu_spot spot;
    spot.thing = within < p->sector ? first : within < 2 * p->sector ? first + 1 : first + 2;
    spot.offset = within - (spot.thing - first) * p->sector;
    return spot;
}

/** @brief Returns the number of virtual bytes from a spot to the end of its thing that exist on the part. A gate or a header has at most
 *         the bytes of its sectors, and at most those of a virtual sector. */
static inline uint32_t dfu_places_left(const struct dfu_placement *p, struct dfu_spot spot) {
    const int is_data = spot.thing % 3 == 2;
    const uint32_t all = p->things[spot.thing].length, there = !is_data && all > p->sector ? p->sector : all;
    return spot.offset < there ? there - spot.offset : 0;
}

/** @brief Erases the sectors of the part that hold the virtual sector at offset `at`; `own` is a struct dfu_places.
 * @return what the part's driver returns; 1 if no virtual sector begins at `at` */
static inline int dfu_places_erase(void *own, uint32_t at, uint32_t length) {
    const struct dfu_places *places = DFU_TO(const struct dfu_places *, own);
    const struct dfu_placement *p = places->placement;
    const struct dfu_spot spot = dfu_places_spot(p, at);
    const struct dfu_span *thing = &p->things[spot.thing];
    if (length != p->sector || dfu_places_left(p, spot) == 0)
        return 1;
    if (spot.thing % 3 == 2)
        return spot.offset % p->sector != 0 ? 1 : places->part->erase(places->part->own, thing->at + spot.offset, length);
    return spot.offset != 0 ? 1 : places->part->erase(places->part->own, thing->at, thing->length);
}

/** @brief Programs bytes at the virtual offset `at`; `own` is a struct dfu_places.
 * @return what the part's driver returns; 1 if the bytes do not lie in one gate, header or data */
static inline int dfu_places_program(void *own, uint32_t at, const uint8_t *bytes, uint32_t length) {
    const struct dfu_places *places = DFU_TO(const struct dfu_places *, own);
    const struct dfu_spot spot = dfu_places_spot(places->placement, at);
    if (length > dfu_places_left(places->placement, spot))
        return 1;
    return places->part->program(places->part->own, places->placement->things[spot.thing].at + spot.offset, bytes, length);
}

/** @brief Reads virtual bytes. Those after gates and headers that don't exist on the part read FFh. Call it from the function that DFU_READ
 *         names.
 * @param read your function, which reads `count` bytes at an address of the part */
static inline void dfu_places_read(const struct dfu_placement *p, uint32_t at, uint8_t *to, size_t count,
                                   void (*read)(uint32_t address, uint8_t *to, size_t count)) {
    while (count > 0) {
        const struct dfu_spot spot = dfu_places_spot(p, at);
        const uint32_t left = dfu_places_left(p, spot), address = p->things[spot.thing].at + spot.offset;
        size_t some = left > 0 ? left : p->sector - spot.offset % p->sector; /* up to the next thing */
        if (some > count)
            some = count;
        if (left > 0)
            read(address, to, some);
        else
            memset(to, 0xff, some);
        at += DFU_TO(uint32_t, some);
        to += some;
        count -= some;
    }
}

#ifdef __cplusplus
}
#endif

#if defined(__clang__) && defined(__has_warning)
#pragma clang diagnostic pop
#endif

#endif
