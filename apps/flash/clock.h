/* SPDX-License-Identifier: MIT OR Apache-2.0 */
/* Monotonic time in milliseconds. */
#ifndef DFU_FLASH_CLOCK_H
#define DFU_FLASH_CLOCK_H

#include <stdbool.h>
#include <stdint.h>

/* Returns the milliseconds since an arbitrary start, by a clock that can't be set. */
int64_t clock_ms(void);

/* Waits for at least `ms` milliseconds. Returns false if a stop (stop.h) ended the wait early. */
bool clock_wait(uint32_t ms);

#endif
