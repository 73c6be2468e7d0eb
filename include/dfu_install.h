/* SPDX-License-Identifier: MIT OR Apache-2.0 */
/**
 * @file dfu_install.h
 * @brief Copies the image to start to a run area, the one address for which images are linked. The code is dfu_boot.c.
 *
 *     static struct dfu_install install = {.run = run, .size = size, .area = {4096, DFU_NOWHERE}, .driver = &driver};
 *     struct dfu_place place;                        // at power-on, or once the device is in appIDLE. It needs no dfu_device_power_on
 *
 *     if (dfu_device_image(&dfu, &place) == 0 && dfu_install_settle(&install, flash + place.at, place.length) == 0)
 *         start what is at run
 *     else
 *         stay in the bootloader: the host may install another image
 *
 * The run area is a range of flash outside the slots of dfu_device.h, on the same part or on another one with other sectors. Before each
 * start it is compared with the image to start, and the sectors that differ are copied. It holds the image from its first byte on, without
 * a header or a seal. RULES, at the end of this file, lists the duties of a program.
 */
#ifndef DFU_INSTALL_H
#define DFU_INSTALL_H

#include "dfu_device.h"

#ifdef __cplusplus
extern "C" {
#endif

/** @brief First value of dfu_run_area.last: no operation is known to have succeeded since power-on. */
#define DFU_NOWHERE 0xffffffffu

/** @brief A refusal in addition to those of enum dfu_result. */
enum dfu_install_result {
    DFU_NO_IMAGE = -15 /**< the image has no bytes */
};

/** @brief State of a run area between two calls. */
struct dfu_run_area {
    uint32_t sector; /**< bytes of a sector: a multiple of 256 up to 262,144 */
    uint32_t last;   /**< private: offset of the last operation, if it succeeded; DFU_NOWHERE after each loss of power */
};

#ifdef __cplusplus
}
#endif

#include "dfu_install_core.h" /* private: the proved calls that the inline ones use */

#if defined(__clang__) && defined(__has_warning)
#pragma clang diagnostic push
#if __has_warning("-Wunsafe-buffer-usage")
#pragma clang diagnostic ignored "-Wunsafe-buffer-usage"
#endif
#endif

#ifdef __cplusplus
extern "C" {
#endif

/** @brief Maximum number of operations for an image of `length` bytes on flash without faults, in sectors of `sector` bytes: for each
 *         sector an erase and its programs of 256 bytes, and the programs of one sector once more. */
#define DFU_INSTALL_OPERATIONS(length, sector) (((length) + (sector) - 1) / (sector) * (1 + (sector) / 256) + (sector) / 256)

/** @brief A run area, which the program fills in. */
struct dfu_install {
    const uint8_t *run;              /**< the run area, mapped for reading; or an address (RULES of dfu_device.h, DFU_READ) */
    size_t size;                     /**< bytes of the run area, a multiple of its sector */
    struct dfu_run_area area;        /**< begins as the size of a sector, and DFU_NOWHERE */
    const struct dfu_driver *driver; /**< driver of the run area; NULL if the program carries out the operations itself */
};

/** @brief Carries out the pending operations through the driver, at most DFU_INSTALL_OPERATIONS.
 * @return 0: the run area holds the whole image; DFU_NOT_WRITTEN: after that many operations it still doesn't, because the part is worn or
 *         the driver broken; DFU_WRITE_PENDING: an operation is pending, and there is no driver; the refusals of dfu_install_next */
static inline int32_t dfu_install_settle(struct dfu_install *i, const uint8_t *image, size_t length);

/** @brief Finds the next operation that copies the image to the run area.
 * @param image  the image to start, `length` bytes: flash + place.at
 * @param ask    set to an erase of a whole sector, or to a program of 256 bytes; its `at` is an offset in the run area
 * @return 0: the run area holds the whole image, which may be started; DFU_WRITE_PENDING: ask is the next operation; DFU_WRONG_SIZE (such a
 *         sector or size isn't allowed), DFU_NO_IMAGE, DFU_TOO_LARGE (the image has more than size bytes): ask is unchanged */
static inline int32_t dfu_install_next(const struct dfu_install *i, const uint8_t *image, size_t length, struct dfu_ask *ask);

/** @brief Reports that the pending operation was carried out, or that it failed if `failed` is not 0. The call reads its range back.
 * @return 0 */
static inline int32_t dfu_install_took(struct dfu_install *i, const uint8_t *image, size_t length, const struct dfu_ask *ask,
                                       uint32_t failed);

/* RULES for a program with a run area.
 *
 * - The operations go to install.driver, whose offsets are those of the run area. If there is a watchdog, the driver must feed it: between
 *   two operations the image is compared at most once.
 * - Power may be lost at any moment: the next call continues the copy. The slots are only read.
 * - A program that can't wait for its flash calls dfu_install_next and dfu_install_took instead of settle, and carries out the operation
 *   between them.
 * - Mark the start of an image on trial only after settle returned 0; else losses of power during the copy use up its starts. If the mark
 *   fails, settle and start the previous image.
 *
 * A program must follow these rules:
 * - The rules of dfu_device.h for the flash apply to the run area too.
 * - area.last is DFU_NOWHERE after each loss of power, and else as the last call left it. For any value of it, 0 is returned only if the
 *   run area holds the whole image; but a wrong `last` may cause 256 bytes to be programmed twice, which matters on flash with ECC.
 * - The application writes no sector that holds part of its image. It may keep data in the sectors after those. Bytes after the image in
 *   its last sector are not compared, and are lost when that sector is erased.
 * - Images have at most `size` bytes: a larger one is refused at each start with DFU_TOO_LARGE. No image can be too large if the run area
 *   has at least as many bytes as a slot's data.
 *
 * Proved: each call dfu_core_install_* answers as described above. Proved of the source in Rattle, over any list of operations with faults
 * in their range and losses of power: a start happens only if the run area holds the whole image. Sequences of the calls in C and the
 * inline calls dfu_install_* are only tested.
 *
 * Memory: sizeof(struct dfu_install), 20 bytes with pointers of 32 bits, and within a call 268 bytes for a struct dfu_ask. */

/* The bodies of the calls, which use those of dfu_install_core.h. */

static inline int32_t dfu_install_next(const struct dfu_install *i, const uint8_t *image, size_t length, struct dfu_ask *ask) {
    return dfu_core_install_next(&i->area, image, length, i->run, i->size, ask);
}

static inline int32_t dfu_install_took(struct dfu_install *i, const uint8_t *image, size_t length, const struct dfu_ask *ask,
                                       uint32_t failed) {
    return dfu_core_install_took(&i->area, image, length, i->run, i->size, ask, failed);
}

static inline int32_t dfu_install_settle(struct dfu_install *i, const uint8_t *image, size_t length) {
    struct dfu_ask ask;
    uint32_t count = 0;
    int32_t n = dfu_install_next(i, image, length, &ask);
    while (n == DFU_WRITE_PENDING && i->driver) {
        if (count == DFU_INSTALL_OPERATIONS(DFU_TO(uint32_t, length), i->area.sector))
            return DFU_NOT_WRITTEN;
        count++;
        dfu_install_took(i, image, length, &ask, dfu_device_carry_out(i->driver, &ask));
        n = dfu_install_next(i, image, length, &ask);
    }
    return n;
}

#ifdef __cplusplus
}
#endif

#if defined(__clang__) && defined(__has_warning)
#pragma clang diagnostic pop
#endif

#endif
