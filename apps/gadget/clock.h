/* SPDX-License-Identifier: MIT OR Apache-2.0 */
#ifndef DFU_GADGET_CLOCK_H
#define DFU_GADGET_CLOCK_H

#include <stdint.h>

/* Returns the milliseconds of a clock that can't be set. */
int64_t clock_ms(void);

#endif
