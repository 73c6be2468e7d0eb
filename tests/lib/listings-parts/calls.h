/* Declares the calls that the monitor wraps, with the prefixes of the linker's --wrap: __real_ for the library's call, and __wrap_ for the
 * monitor's. */
#ifndef CALLS_H
#define CALLS_H
#include "dfu_device.h"
#include "dfu_trial.h"

#define REAL(name) __real_##name
#define WRAP(name) __wrap_##name
#define FLASH const uint8_t *flash, size_t size
#define DEVICE const struct dfu_config *c, struct dfu_record *r, uint8_t *block, size_t most, FLASH
int32_t REAL(dfu_core_power_on)(const struct dfu_config *c, struct dfu_record *r, FLASH);
int32_t REAL(dfu_core_begin)(const struct dfu_config *c, struct dfu_record *r, FLASH);
int32_t REAL(dfu_core_handle)(DEVICE, const uint8_t setup[8], const uint8_t *body, size_t length, uint8_t *out, size_t room);
int32_t REAL(dfu_core_elapse)(DEVICE, uint32_t ms);
int32_t REAL(dfu_core_usb_reset)(DEVICE);
int32_t REAL(dfu_core_next)(const struct dfu_config *c, const struct dfu_record *r, const uint8_t *block, size_t most, FLASH,
                            struct dfu_ask *ask);
int32_t REAL(dfu_core_took)(DEVICE, uint32_t failed, uint8_t *out, size_t room);
int32_t REAL(dfu_core_format_start)(const struct dfu_config *c, struct dfu_record *r, FLASH, const uint8_t *image, size_t length);
int32_t REAL(dfu_core_format_next)(const struct dfu_config *c, const struct dfu_record *r, FLASH, const uint8_t *image, size_t length,
                                   struct dfu_ask *ask);
int32_t REAL(dfu_core_format_took)(const struct dfu_config *c, struct dfu_record *r, FLASH, const uint8_t *image, size_t length,
                                   uint32_t failed);
int32_t REAL(dfu_core_trial_start)(const struct dfu_tries *t, FLASH, struct dfu_ask *ask, struct dfu_starting *starting);
int32_t REAL(dfu_core_trial_start_from)(const struct dfu_tries *t, FLASH, const struct dfu_standing *standing, struct dfu_ask *ask,
                                        struct dfu_starting *starting);
int32_t REAL(dfu_core_trial_confirm)(const struct dfu_tries *t, FLASH, uint32_t at, struct dfu_ask *ask);
int32_t REAL(dfu_core_trial_end)(const struct dfu_tries *t, FLASH, struct dfu_ask *ask);
int32_t REAL(dfu_core_trial_upload)(const struct dfu_tries *t, FLASH, struct dfu_ask *ask);
#endif
