/* SPDX-License-Identifier: MIT OR Apache-2.0 */
/* --retry with --stamp: decides whether the returning board is the one of the last attempt, and whether the last stamp entry counts as
 * used. */
#ifndef DFU_FLASH_AGAIN_H
#define DFU_FLASH_AGAIN_H

#include "session.h"
#include "words.h"

#include <stdbool.h>
#include <stdint.h>

/* Returns true if the device that was found is known to be the board of the previous session. */
bool again_is_same(const struct session *session);

/* Returns true if the board that returned may be a different one, which must not get the same stamp entry. This is the case if the board
 * left by itself after data was sent in a session with --stamp, and its serial number was missing before or is missing now. */
bool again_is_doubtful(const struct session *session, uint32_t seen);

/* Reports the previous session with its stamp entry as used, so that the board that returned gets the next entry. */
void again_leave_entry(const struct session *session, const struct words *words);

#endif
