/* SPDX-License-Identifier: MIT OR Apache-2.0 */
/* --detach: only brings a device to DFU mode. */
#ifndef DFU_FLASH_DFU_MODE_H
#define DFU_FLASH_DFU_MODE_H

#include "messages.h"
#include "session.h"

/* Brings the open device to DFU mode, unless it is already there. Returns the verdict. */
struct verdict dfu_mode(struct session *session);

#endif
