/* SPDX-License-Identifier: MIT OR Apache-2.0 */
/* Wakes a wait when a stop is requested. A forked process begins with no stop requested. */
#ifndef DFU_FLASH_WAKE_H
#define DFU_FLASH_WAKE_H

/* Returns a file descriptor for poll that becomes readable after a stop, or -1 if there is none. */
int stop_descriptor(void);

/* Clears the stop state and the pipe that a forked process inherits. */
void stop_anew(void);

#endif
