/* SPDX-License-Identifier: MIT OR Apache-2.0 */
/**
 * @file dfu_core.h
 * @brief Private: the proved calls that the inline calls of dfu_device.h are built on. A program includes dfu_device.h.
 *
 * dfu_core_NAME does what dfu_device_NAME does and returns the same result, but takes the fields of struct dfu_device as separate
 * parameters. dfu_device.h documents each call, with its refusals in their order. The code is dfu_device.c, in C11, for little-endian
 * processors of 32 or 64 bits. It keeps no state, allocates nothing, and needs at most memcpy, memmove and memset of a C library. If the
 * program changes record, block or flash between two calls, the next call works on the changed contents, or refuses them. In each call
 * no pointer may be NULL, even with length 0. For any contents of that memory, a call returns, and touches only the memory that its
 * pointers and lengths name.
 *
 * Fields of struct dfu_record:
 *
 * | mode | state                                 | first         | second   | number            |
 * |------|---------------------------------------|---------------|----------|-------------------|
 * | 0    | appIDLE                               |               |          |                   |
 * | 1    | appDETACH                             | timeout in ms | ms spent |                   |
 * | 2    | dfuIDLE                               |               |          |                   |
 * | 3    | dfuDNLOAD-SYNC, the block not written | bytes written |          | of the next block |
 * | 4    | dfuDNLOAD-SYNC, all written           | bytes written |          | of the next block |
 * | 5    | dfuDNBUSY                             | bytes written | ms spent | of the next block |
 * | 6    | dfuDNLOAD-IDLE                        | bytes written |          | of the next block |
 * | 7    | dfuMANIFEST-SYNC, not complete        | bytes written |          |                   |
 * | 8    | dfuMANIFEST-SYNC, complete            |               |          |                   |
 * | 9    | dfuMANIFEST                           | bytes written | ms spent |                   |
 * | 10   | dfuMANIFEST-WAIT-RESET                |               |          |                   |
 * | 11   | dfuUPLOAD-IDLE                        | bytes sent    |          | of the next block |
 * | 12   | dfuERROR                              |               |          | the status code   |
 *
 * version      DFU_VERSION of the archive                            slot        the active slot, 0 or 1
 * put_end      number of bytes put into the spare slot so far       header      the header of the active slot, as it is on the flash
 * length       modes 3 and 5: number of first bytes of the block's memory that are not written yet
 * held_length  number of bytes, after the transfer size in the block's memory, that are kept until they fill a unit
 * asked        0, or 1 + wLength of the GETSTATUS whose answer is pending
 * work         pending operations: 0 none, 1 a block's, 2 those that make an image active, 3 a format's. While any are pending:
 *   spare        offset of the spare slot; in a format: bytes of the image before the current part
 *   sum          the image's CRC register
 *   done         number of bytes whose operations are done; in a format: those of the current part
 *   generation   the image's generation; in a format: the current part, 0 to 4
 *   close        1 if an operation must close the gate first, else 0
 */
#include "dfu_device.h"

#ifndef DFU_CORE_H
#define DFU_CORE_H

#ifdef __cplusplus
extern "C" {
#endif

int32_t dfu_core_power_on(const struct dfu_config *config, struct dfu_record *record, const uint8_t *flash, size_t size);
int32_t dfu_core_begin(const struct dfu_config *config, struct dfu_record *record, const uint8_t *flash, size_t size);
int32_t dfu_core_functional(const struct dfu_config *config, uint8_t out[9]);

/** @brief Does what dfu_device_handle does.
 * @param block  memory of `most` bytes, at least the transfer size and the unit together. Its first bytes hold the block until it is
 *               written; bytes that fill no whole unit are kept after the transfer size until more arrive
 * @param body   the whole data stage, `length` bytes; length 0 if the host reads
 * @param out    room for the answer: at least the transfer size, and at least 6 bytes. It may not overlap block */
int32_t dfu_core_handle(const struct dfu_config *config, struct dfu_record *record, uint8_t *block, size_t most,
                        const uint8_t *flash, size_t size, const uint8_t setup[8], const uint8_t *body, size_t length,
                        uint8_t *out, size_t room);

int32_t dfu_core_too_long(const struct dfu_config *config, struct dfu_record *record, const uint8_t setup[8]);
int32_t dfu_core_elapse(const struct dfu_config *config, struct dfu_record *record, uint8_t *block, size_t most,
                        const uint8_t *flash, size_t size, uint32_t ms);
int32_t dfu_core_usb_reset(const struct dfu_config *config, struct dfu_record *record, uint8_t *block, size_t most,
                           const uint8_t *flash, size_t size);

int32_t dfu_core_next(const struct dfu_config *config, const struct dfu_record *record, const uint8_t *block, size_t most,
                      const uint8_t *flash, size_t size, struct dfu_ask *ask);
int32_t dfu_core_took(const struct dfu_config *config, struct dfu_record *record, uint8_t *block, size_t most,
                      const uint8_t *flash, size_t size, uint32_t failed, uint8_t *out, size_t room);

/** @brief Does what dfu_device_would_stall does; `size` is the size of the flash. */
int32_t dfu_core_would_stall(const struct dfu_config *config, const struct dfu_record *record, size_t size, const uint8_t setup[8]);

int32_t dfu_core_closes(const struct dfu_config *config, const struct dfu_record *record, const uint8_t setup[8]);

int32_t dfu_core_candidate(const struct dfu_config *config, const struct dfu_record *record, const uint8_t *flash, size_t size,
                           struct dfu_place *place);
int32_t dfu_core_refuse_close(const struct dfu_config *config, struct dfu_record *record, const uint8_t setup[8], uint32_t status);
int32_t dfu_core_refuse(const struct dfu_config *config, struct dfu_record *record, uint32_t status);

int32_t dfu_core_state(const struct dfu_record *record);
int32_t dfu_core_code(const struct dfu_record *record);
int32_t dfu_core_image(const struct dfu_config *config, const uint8_t *flash, size_t size, struct dfu_place *place);
int32_t dfu_core_due(const struct dfu_config *config, const struct dfu_record *record);

int32_t dfu_core_is_blank(const struct dfu_config *config, const uint8_t *flash, size_t size);
int32_t dfu_core_format_start(const struct dfu_config *config, struct dfu_record *record, const uint8_t *flash, size_t size,
                              const uint8_t *image, size_t length);
int32_t dfu_core_format_next(const struct dfu_config *config, const struct dfu_record *record, const uint8_t *flash, size_t size,
                             const uint8_t *image, size_t length, struct dfu_ask *ask);
int32_t dfu_core_format_took(const struct dfu_config *config, struct dfu_record *record, const uint8_t *flash, size_t size,
                             const uint8_t *image, size_t length, uint32_t failed);
/** @brief Returns the version of the archive.
 * @return DFU_VERSION, if header and archive are of one version */
int32_t dfu_core_version(void);

#ifdef __cplusplus
}
#endif

#endif
