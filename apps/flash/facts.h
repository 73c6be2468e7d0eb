/* SPDX-License-Identifier: MIT OR Apache-2.0 */
/* Facts about the device after an action, for dfu_watch.h. */
#ifndef DFU_FLASH_FACTS_H
#define DFU_FLASH_FACTS_H

#include "session.h"

/* Stores the device's descriptors when it is first found in its mode. A device in run-time mode isn't stored after a block was sent,
 * because it may run another image. */
void facts_note(struct session *session);

/* Returns the current facts. `is_reached` means that the request was sent, and `is_gone` that the device left and didn't return. */
struct dfu_facts facts_of(const struct session *session, bool is_reached, bool is_gone);

/* Returns true if the device is in DFU mode without a functional descriptor, so that its block size is unknown. A device with a memory map
 * doesn't count, because it may speak DfuSe. */
bool facts_lacks_descriptor(const struct found *info);

#endif
