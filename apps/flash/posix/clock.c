/* SPDX-License-Identifier: MIT OR Apache-2.0 */
/* Uses the monotonic clock. */
#define _POSIX_C_SOURCE 200809L
#include "../clock.h"
#include "../stop.h"
#include "wake.h"

#include <limits.h>
#include <poll.h>
#include <stddef.h>
#include <time.h>

#define MS_NS 1000000

static int64_t now_ns(void)
{
    struct timespec now;
    clock_gettime(CLOCK_MONOTONIC, &now);
    return (int64_t)now.tv_sec * 1000 * MS_NS + now.tv_nsec;
}

int64_t clock_ms(void)
{
    return now_ns() / MS_NS;
}

bool clock_wait(uint32_t ms)
{
    struct pollfd stop = {stop_descriptor(), POLLIN, 0};
    int64_t end = now_ns() + (int64_t)ms * MS_NS;
    for (;;) {
        int64_t left = (end - now_ns() + MS_NS - 1) / MS_NS;
        if (stop_cause != STOP_NONE)
            return false;
        if (left <= 0)
            return true;
        poll(&stop, 1, left > INT_MAX ? INT_MAX : (int)left);
    }
}
