/* Common parts of the programs that test a device over plain memory: calls that carry out their operations through the driver of
 * dfu_device_memory.h. */
#ifndef MEMORY_H
#define MEMORY_H
#include "dfu_device_memory.h"

static inline int32_t handle_in_memory(struct dfu_device *d, const uint8_t setup[8], const uint8_t *body, size_t length, uint8_t *out,
                                       size_t room) {
    int32_t n = dfu_core_handle(d->config, &d->record, d->block, d->most, d->flash, d->size, setup, body, length, out, room);
    return dfu_device_settle(d, n, out, room);
}

static inline int32_t elapse_in_memory(struct dfu_device *d, uint32_t ms) {
    uint8_t none[6];
    return dfu_device_settle(d, dfu_device_elapse(d, ms), none, sizeof none);
}

#endif
