/* Simulates a loss of power during a call. */
#ifndef BARE_CUT_H
#define BARE_CUT_H
#include <stdint.h>

/* Calls `call` and ends it after this many ticks of a timer. Returns 1; or 0 if the call returned before the cut. With the QEMU options of
 * the scripts a tick is shorter than an instruction. */
int cut(void (*call)(void), uint32_t ticks);

#endif
