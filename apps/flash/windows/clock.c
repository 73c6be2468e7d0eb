/* SPDX-License-Identifier: MIT OR Apache-2.0 */
/* Uses the performance counter, which can't be set. A wait ends when the event of a stop is set. */
#include "../clock.h"
#include "../stop.h"
#include "wake.h"

#include <windows.h>

#define SHORT_MS 50 /* time between two checks for a stop if there is no event */

static int64_t counts_a_second(void)
{
    static LARGE_INTEGER rate;
    if (rate.QuadPart == 0)
        QueryPerformanceFrequency(&rate);
    return rate.QuadPart;
}

static int64_t now_us(void)
{
    LARGE_INTEGER now;
    int64_t rate = counts_a_second();
    QueryPerformanceCounter(&now);
    return now.QuadPart / rate * 1000000 + now.QuadPart % rate * 1000000 / rate;
}

int64_t clock_ms(void)
{
    return now_us() / 1000;
}

bool clock_wait(uint32_t ms)
{
    int64_t end = now_us() + (int64_t)ms * 1000;
    HANDLE event = stop_event();
    for (;;) {
        int64_t left = (end - now_us() + 999) / 1000;
        DWORD most = left > INT32_MAX ? INT32_MAX : (DWORD)left;
        if (stop_cause != STOP_NONE)
            return false;
        if (left <= 0)
            return true;
        if (event != NULL)
            WaitForSingleObject(event, most);
        else
            Sleep(most > SHORT_MS ? SHORT_MS : most);
    }
}
