/* SPDX-License-Identifier: MIT OR Apache-2.0 */
/* Events that end a session before its report: a signal, or the time limit of --timeout. */
#ifndef DFU_FLASH_STOP_H
#define DFU_FLASH_STOP_H

#include <signal.h>
#include <stdint.h>

/* Causes of a stop. stop_cause is the one that occurred first. */
enum { STOP_NONE, STOP_SIGNAL, STOP_TIME };

extern volatile sig_atomic_t stop_cause;

/* Handles signals, and sets a time limit of `seconds` unless that is 0. Each of these events ends a wait at once, so that the session can
 * end. */
void stop_catch(uint32_t seconds);

/* Cancels the time limit after the session is over. */
void stop_no_more(void);

#endif
