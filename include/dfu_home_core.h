/* SPDX-License-Identifier: MIT OR Apache-2.0 */
/**
 * @file dfu_home_core.h
 * @brief The proved calls for two areas, with their types and results. A bootloader includes dfu_home.h, which is built on them.
 *
 * The code is dfu_boot.c, in C11, for little-endian processors of 32 or 64 bits. It keeps no state, allocates nothing, and needs at most
 * memcpy, memmove and memset of a C library. dfu_home.h lists the rules for the program. For any contents of flash and structs, a call
 * returns, and touches only the memory that its pointers and lengths name.
 */
#ifndef DFU_HOME_CORE_H
#define DFU_HOME_CORE_H

#include "dfu_install_core.h"
#include "dfu_trial_core.h"

#ifdef __cplusplus
extern "C" {
#endif

/** @brief A result in addition to those of enum dfu_result. */
enum dfu_home_result {
    DFU_NOT_HOME = -26 /**< the active image is in the second slot: a download would overwrite the program in the first slot */
};

/** @brief State of a copy between two calls: {DFU_NOWHERE, 0} after each loss of power. A program only passes it to the next call. */
struct dfu_home_record {
    uint32_t last;  /**< private: the offset of the last operation, if it succeeded */
    uint32_t count; /**< private: the number of operations since power-on */
};

/** @brief Finds the next operation that copies the active image to the first slot.
 *
 * The same image stays active if the operation succeeds, fails, or is cut off with any bytes in its range. The range lies in the first
 * slot; an erase covers a whole sector, and a program covers bytes that read FFh. A flash of `size` bytes gets at most size / 128
 * operations.
 *
 * @param config  the configuration of the device, whose unit and sector are used
 * @param record  as the last call left it
 * @param flash   both slots, `size` bytes
 * @param ask     set with DFU_WRITE_PENDING, and only then: an erase of a whole sector, or a program of 16 to 256 bytes
 * @return 0: the active image is in the first slot, and may be started there; DFU_WRITE_PENDING: ask is the pending operation;
 *         DFU_NO_CONFIG (unit or sector isn't allowed), DFU_NO_MEDIUM (2^32 bytes or more), DFU_NO_SECTORS, DFU_NO_MEDIUM (no active
 *         image), DFU_NOT_WRITTEN (after that many operations the image is not in the first slot: the part is worn, or its driver
 *         broken) */
int32_t dfu_core_home_next(const struct dfu_config *config, const struct dfu_home_record *record, const uint8_t *flash, size_t size,
                           struct dfu_ask *ask);

/** @brief Reports that the pending operation was carried out, or that it failed if `failed` is not 0. The call reads its range back.
 * @return 0 */
int32_t dfu_core_home_took(struct dfu_home_record *record, const uint8_t *flash, size_t size, const struct dfu_ask *ask,
                           uint32_t failed);

/** @brief Returns 1 if a program that runs from the first slot may serve a download. The call reads the image of each open slot once.
 * @return 1: the active image is in the first slot, so a download goes to the second one; 0: it is in the second slot, and a download would
 *         overwrite the program; DFU_NO_CONFIG (unit or sector isn't allowed), DFU_NO_MEDIUM (no active image, or 2^32 bytes or more) */
int32_t dfu_core_home_may_download(const struct dfu_config *config, const uint8_t *flash, size_t size);

#ifdef __cplusplus
}
#endif

#endif
