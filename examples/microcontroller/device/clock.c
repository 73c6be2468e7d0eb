/* SPDX-License-Identifier: MIT OR Apache-2.0 */
/* TIMER0 of the nRF51, which counts microseconds in 32 bits. */
#include "clock.h"

#define TIMER(at) (*(volatile uint32_t *)(0x40008000 + (at)))
#define START TIMER(0x000)
#define CAPTURE1 TIMER(0x044)
#define COMPARE0 TIMER(0x140)
#define INTENSET TIMER(0x304)
#define INTENCLR TIMER(0x308)
#define BITMODE TIMER(0x508)
#define PRESCALER TIMER(0x510)
#define CC0 TIMER(0x540)
#define CC1 TIMER(0x544)
#define OF_COMPARE0 (1u << 16)

/* Time up to which clock_passed has counted, in microseconds. */
static uint32_t last;

static uint32_t now(void) {
    CAPTURE1 = 1;
    return CC1;
}

void clock_begin(void) {
    BITMODE = 3;   /* 32 bits */
    PRESCALER = 4; /* 16 MHz / 2^4 = 1 MHz */
    START = 1;
    last = now();
}

uint32_t clock_passed(void) {
    uint32_t ms = (now() - last) / 1000;
    last += ms * 1000;
    return ms;
}

void clock_wake_in(uint32_t ms) {
    INTENCLR = OF_COMPARE0;
    COMPARE0 = 0;
    if (ms == 0)
        return;
    CC0 = now() + ms * 1000;
    INTENSET = OF_COMPARE0;
}

void clock_is_due(void) {
    COMPARE0 = 0;
    INTENCLR = OF_COMPARE0;
}
