/* Simulated time: the program's waits end at once. Signals arrive during these waits. */
#ifndef FUZZ_CLOCK_H
#define FUZZ_CLOCK_H

#include <stdbool.h>
#include <stdint.h>

/* Returns the milliseconds since the start. */
int64_t clock_now(void);

/* Advances the time by `ms`, also for the boards. */
void clock_pass(uint64_t ms);

/* Sends the program one of the signals that it may receive. */
void signal_comes(void);

/* Returns the time of the first signal that the program handled, or -1. */
int64_t signal_came(void);

#endif
