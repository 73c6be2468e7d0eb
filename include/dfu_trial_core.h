/* SPDX-License-Identifier: MIT OR Apache-2.0 */
/**
 * @file dfu_trial_core.h
 * @brief Private: the proved calls that the inline calls of dfu_trial.h are built on. A program includes dfu_trial.h.
 *
 * dfu_core_trial_NAME does what dfu_trial_NAME does and returns the same result, but takes the fields of struct dfu_trial as separate
 * parameters. dfu_trial.h documents each call.
 *
 * The code is dfu_boot.c, in C11, for little-endian processors of 32 or 64 bits. It keeps no state, allocates nothing, and needs at most
 * memcpy, memmove and memset of a C library. Each call reads the flash and requests at most one operation. For any contents of flash and
 * structs, a call returns, and touches only the memory that its pointers and lengths name.
 */
#include "dfu_device.h"
#include "dfu_trial.h"

#ifndef DFU_TRIAL_CORE_H
#define DFU_TRIAL_CORE_H

#ifdef __cplusplus
extern "C" {
#endif

int32_t dfu_core_trial_look(const struct dfu_tries *tries, const uint8_t *flash, size_t size, struct dfu_standing *standing);
int32_t dfu_core_trial_start(const struct dfu_tries *tries, const uint8_t *flash, size_t size, struct dfu_ask *ask,
                             struct dfu_starting *starting);
int32_t dfu_core_trial_start_from(const struct dfu_tries *tries, const uint8_t *flash, size_t size, const struct dfu_standing *standing,
                                  struct dfu_ask *ask, struct dfu_starting *starting);
int32_t dfu_core_trial_runs(const uint8_t *flash, size_t size, const struct dfu_ask *ask, const struct dfu_starting *starting,
                            struct dfu_place *place);
int32_t dfu_core_trial_confirm(const struct dfu_tries *tries, const uint8_t *flash, size_t size, uint32_t at, struct dfu_ask *ask);
int32_t dfu_core_trial_end(const struct dfu_tries *tries, const uint8_t *flash, size_t size, struct dfu_ask *ask);
int32_t dfu_core_trial_upload(const struct dfu_tries *tries, const uint8_t *flash, size_t size, struct dfu_ask *ask);

#ifdef __cplusplus
}
#endif

#endif
