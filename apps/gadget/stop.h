/* SPDX-License-Identifier: MIT OR Apache-2.0 */
/* Signals that end `run`: SIGTERM, SIGINT or SIGHUP. */
#ifndef DFU_GADGET_STOP_H
#define DFU_GADGET_STOP_H

#include <stdbool.h>

/* Makes a signal end the current wait or transfer, and stores the signal. Returns false if no pipe can be made. */
bool stop_catch(void);

/* Returns the signal that arrived, or 0 if none did. */
int stop_signal(void);

/* Returns a file descriptor for poll that becomes readable after a signal. */
int stop_descriptor(void);

/* Restores the default actions of the signals, in a child before it executes its program. */
void stop_forget(void);

/* Reports that the medium can't be read any more, and ends the program with STATUS_MEDIUM. This closes endpoint 0, so the gadget leaves the
 * bus. */
_Noreturn void stop_lost(void);

/* Makes an unreadable page of the mapping end the program by stop_lost. */
void stop_at_lost_medium(void);

#endif
