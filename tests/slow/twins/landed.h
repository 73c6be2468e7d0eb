/* The calls of dfu_core.h, implemented by the two libraries of version 0.2.0. dfu_device.c implements the calls without a flash, and a
 * device over plain memory; dfu_asking.c implements all others. Each call has the parameters and results of the call with the same name in
 * dfu_core.h. */
#ifndef LANDED_H
#define LANDED_H
#include "dfu_core.h"

int32_t landed_power_on(const struct dfu_config *config, struct dfu_record *record, const uint8_t *flash, size_t size);
int32_t landed_begin(const struct dfu_config *config, struct dfu_record *record, uint8_t *block, size_t most, const uint8_t *flash,
                     size_t size);
int32_t landed_handle(const struct dfu_config *config, struct dfu_record *record, uint8_t *block, size_t most, const uint8_t *flash,
                      size_t size, const uint8_t setup[8], const uint8_t *body, size_t length, uint8_t *out, size_t room);
int32_t landed_elapse(const struct dfu_config *config, struct dfu_record *record, uint8_t *block, size_t most, const uint8_t *flash,
                      size_t size, uint32_t ms);
int32_t landed_usb_reset(const struct dfu_config *config, struct dfu_record *record, uint8_t *block, size_t most, const uint8_t *flash,
                         size_t size);
int32_t landed_next(const struct dfu_config *config, const struct dfu_record *record, const uint8_t *block, size_t most,
                    const uint8_t *flash, size_t size, struct dfu_ask *ask);
int32_t landed_took(const struct dfu_config *config, struct dfu_record *record, uint8_t *block, size_t most, const uint8_t *flash,
                    size_t size, uint32_t failed, uint8_t *out, size_t room);
int32_t landed_would_stall(const struct dfu_config *config, const struct dfu_record *record, size_t size, const uint8_t setup[8]);
int32_t landed_too_long(const struct dfu_config *config, struct dfu_record *record, const uint8_t setup[8]);
int32_t landed_due(const struct dfu_config *config, const struct dfu_record *record);
int32_t landed_functional(const struct dfu_config *config, uint8_t out[9]);
int32_t landed_state(const struct dfu_record *record);
int32_t landed_code(const struct dfu_record *record);
int32_t landed_image(const struct dfu_config *config, const uint8_t *flash, size_t size, struct dfu_place *place);
int32_t landed_format_start(const struct dfu_config *config, struct dfu_record *record, const uint8_t *flash, size_t size,
                            const uint8_t *image, size_t length);
int32_t landed_format_next(const struct dfu_config *config, const struct dfu_record *record, const uint8_t *flash, size_t size,
                           const uint8_t *image, size_t length, struct dfu_ask *ask);
int32_t landed_format_took(const struct dfu_config *config, struct dfu_record *record, const uint8_t *flash, size_t size,
                           const uint8_t *image, size_t length, uint32_t failed);

/* The device over plain memory, which stores images without operations. */
int32_t landed_memory_power_on(const struct dfu_config *config, struct dfu_record *record, uint8_t *medium, size_t size);
int32_t landed_memory_handle(const struct dfu_config *config, struct dfu_record *record, uint8_t *block, size_t most, uint8_t *medium,
                             size_t size, const uint8_t setup[8], const uint8_t *body, size_t length, uint8_t *out, size_t room);
int32_t landed_memory_elapse(const struct dfu_config *config, struct dfu_record *record, uint8_t *block, size_t most, uint8_t *medium,
                             size_t size, uint32_t ms);
int32_t landed_memory_usb_reset(const struct dfu_config *config, struct dfu_record *record, uint8_t *block, size_t most, uint8_t *medium,
                                size_t size);
#endif
