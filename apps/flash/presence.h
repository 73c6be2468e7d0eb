/* SPDX-License-Identifier: MIT OR Apache-2.0 */
/* Tests if the opened device is still connected. */
#ifndef DFU_FLASH_PRESENCE_H
#define DFU_FLASH_PRESENCE_H

#include "device.h"

#include <stdbool.h>

/* Returns true if the device is still listed. A device that left and returned has another address. */
bool present_is(const struct device *device);

/* Returns true if a transfer failed with `answer` because the device left, on a system that doesn't report this. */
bool present_is_lost(const struct device *device, int answer);

/* Asks a person to pull the plug. Returns true if the device left in time, and false if the time was over or a stop was requested. */
bool present_is_pulled(const struct device *device);

#endif
