/* SPDX-License-Identifier: MIT OR Apache-2.0 */
/* Finds the first uploaded byte that differs from the image. The host only reports a difference, but a person needs the offset of that
 * byte. */
#ifndef DFU_FLASH_COMPARE_H
#define DFU_FLASH_COMPARE_H

#include "session.h"

/* Stores in session->difference the first byte of an uploaded block that differs from the image. */
void compare_blocks(struct session *session, const struct dfu_action *action, const struct answer *answer);

/* Stores in session->difference the first byte of an uploaded DfuSe block that differs from the image at the same address. It must be
 * called before the host moves to the next address. */
void compare_memory(struct session *session, const struct dfuse_action *action, const struct answer *answer);

#endif
