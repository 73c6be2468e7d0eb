/* SPDX-License-Identifier: MIT OR Apache-2.0 */
/* A clock in milliseconds. */
#ifndef CLOCK_H
#define CLOCK_H
#include <stdint.h>

/* Starts the clock from 0. */
void clock_begin(void);

/* Returns the milliseconds since the last call. */
uint32_t clock_passed(void);

/* Requests an interrupt after `ms` milliseconds; 0 cancels it. clock_is_due clears the interrupt. */
void clock_wake_in(uint32_t ms);
void clock_is_due(void);

#endif
