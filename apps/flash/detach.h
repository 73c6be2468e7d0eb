/* SPDX-License-Identifier: MIT OR Apache-2.0 */
/* Sends this program's own DETACH, which the host doesn't request. */
#ifndef DFU_FLASH_DETACH_H
#define DFU_FLASH_DETACH_H

#include "answer.h"

#include <stdbool.h>

/* Sends one DETACH to a device in run-time mode. If the request is acknowledged and the device detaches by itself, waits for
 * wDetachTimeOut. Returns the answer to the request. */
struct answer detach_send(struct wire *wire);

/* Waits, after DETACH and the reset, up to 5 seconds until the device is in DFU mode, and opens it. Returns true if it is in DFU mode. */
bool detach_await(struct wire *wire);

/* Brings a device from run-time mode to DFU mode: DETACH, a reset unless the device left by itself, and the wait. Returns true if the
 * device is then in DFU mode. */
bool detach(struct wire *wire);

#endif
