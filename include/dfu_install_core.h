/* SPDX-License-Identifier: MIT OR Apache-2.0 */
/**
 * @file dfu_install_core.h
 * @brief Private: the proved calls that the inline calls of dfu_install.h are built on. A program includes dfu_install.h.
 *
 * dfu_core_install_NAME does what dfu_install_NAME does and returns the same result, but takes the fields of struct dfu_install as separate
 * parameters. dfu_install.h documents each call. `run` points to the run area; `size` is the number
 * of its bytes, a multiple of its sector.
 *
 * The code is dfu_boot.c, in C11, for little-endian processors of 32 or 64 bits. It keeps no state, allocates nothing, and needs at most
 * memcpy, memmove and memset of a C library. For any contents of image, run area and record, a call returns, and touches only the memory
 * that its pointers and lengths name.
 */
#include "dfu_device.h"
#include "dfu_install.h"

#ifndef DFU_INSTALL_CORE_H
#define DFU_INSTALL_CORE_H

#ifdef __cplusplus
extern "C" {
#endif

int32_t dfu_core_install_next(const struct dfu_run_area *area, const uint8_t *image, size_t length, const uint8_t *run, size_t size,
                              struct dfu_ask *ask);
int32_t dfu_core_install_took(struct dfu_run_area *area, const uint8_t *image, size_t length, const uint8_t *run, size_t size,
                              const struct dfu_ask *ask, uint32_t failed);

#ifdef __cplusplus
}
#endif

#endif
