/* SPDX-License-Identifier: MIT OR Apache-2.0 */
/* Wakes a wait when a stop is requested. */
#ifndef DFU_FLASH_WAKE_H
#define DFU_FLASH_WAKE_H

/* Returns the HANDLE of an event that is set after a stop, or NULL if there is none. */
void *stop_event(void);

#endif
