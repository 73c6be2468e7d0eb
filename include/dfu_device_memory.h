/* SPDX-License-Identifier: MIT OR Apache-2.0 */
/**
 * @file dfu_device_memory.h
 * @brief A driver for dfu_device.h whose flash is plain memory, such as FRAM or MRAM that is mapped, or a file on a host.
 *
 *     static uint8_t medium[DFU_MEDIUM_SIZE(1, 0, 1024)];
 *     static const struct dfu_driver driver = DFU_MEMORY_DRIVER(medium);
 *     static struct dfu_device dfu = {.config = &config, .flash = medium, .size = sizeof medium, .driver = &driver, ..};
 *
 * Bytes are stored one at a time and in order. Caches and memory must keep that order, because the byte that opens a slot is stored last.
 */
#ifndef DFU_DEVICE_MEMORY_H
#define DFU_DEVICE_MEMORY_H

#include "dfu_device.h"

#if defined(__clang__) && defined(__has_warning)
#pragma clang diagnostic push
#if __has_warning("-Wunsafe-buffer-usage")
#pragma clang diagnostic ignored "-Wunsafe-buffer-usage"
#endif
#endif

#ifdef __cplusplus
extern "C" {
#endif

/** @brief Initializer of a struct dfu_driver: medium is the memory to which dfu_device.flash points. */
#define DFU_MEMORY_DRIVER(medium) {(medium), dfu_memory_erase, dfu_memory_program}

/** @brief Erases `length` bytes to FFh.
 * @return 0 */
static inline int dfu_memory_erase(void *own, uint32_t at, uint32_t length) {
    volatile uint8_t *to = DFU_TO(uint8_t *, own) + at;
    uint32_t i;
    for (i = 0; i < length; i++)
        to[i] = 0xff;
    return 0;
}

/** @brief Stores `length` bytes.
 * @return 0 */
static inline int dfu_memory_program(void *own, uint32_t at, const uint8_t *bytes, uint32_t length) {
    volatile uint8_t *to = DFU_TO(uint8_t *, own) + at;
    uint32_t i;
    for (i = 0; i < length; i++)
        to[i] = bytes[i];
    return 0;
}

/** @brief Builds the first contents of a flash in memory, for a device programmer to write.
 * @return the results of dfu_device_format */
static inline int32_t dfu_memory_format(const struct dfu_config *c, uint8_t *medium, size_t size, const uint8_t *image, size_t length) {
    const struct dfu_driver stores = DFU_MEMORY_DRIVER(medium);
    struct dfu_device d;
    d.config = c;
    d.flash = medium;
    d.size = size;
    d.block = medium;
    d.most = 0;
    d.driver = &stores;
    return dfu_device_format(&d, image, length);
}

#ifdef __cplusplus
}
#endif

#if defined(__clang__) && defined(__has_warning)
#pragma clang diagnostic pop
#endif

#endif
