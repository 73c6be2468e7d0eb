/* SPDX-License-Identifier: MIT OR Apache-2.0 */
/* Handles devices that stall GETSTATUS in run-time mode. */
#ifndef DFU_FLASH_STALLS_H
#define DFU_FLASH_STALLS_H

#include "answer.h"

#include <dfu_watch.h>

/* Resets the bus for the host, and sends a DETACH before it if the device stalls GETSTATUS. */
struct answer stalls_reset(const struct dfu_watch *watch, struct wire *wire);

#endif
