/* SPDX-License-Identifier: MIT OR Apache-2.0 */
/* Handles the events that end a session: Ctrl-C, Ctrl-Break, a closed window, a user who signs out, and the time limit. Each arrives on its
 * own thread. */
#include "../stop.h"
#include "../clock.h"
#include "wake.h"

#include <stdbool.h>
#include <stdlib.h>
#include <windows.h>

#define SAME_MS 100 /* time within which a second Ctrl-C counts as the first one */

volatile sig_atomic_t stop_cause;
static volatile LONG cause;
static volatile LONG64 came_ms[2]; /* time of the first Ctrl-C and the first Ctrl-Break; 0 if there was none */
static HANDLE event, timer;

void *stop_event(void)
{
    return event;
}

static void note(LONG which)
{
    if (InterlockedCompareExchange(&cause, which, STOP_NONE) == STOP_NONE)
        stop_cause = which;
    if (event != NULL)
        SetEvent(event);
}

/* Returns true for a second event of the same kind, which ends the program as if it had no handler. */
static bool is_second(DWORD kind)
{
    int64_t now_ms = clock_ms() + 1;
    LONG64 first = InterlockedCompareExchange64(&came_ms[kind == CTRL_BREAK_EVENT], now_ms, 0);
    return first != 0 && now_ms - first >= SAME_MS;
}

/* After CTRL_CLOSE_EVENT and similar events Windows ends the program when the handler returns, or after about five seconds. The handler
 * sleeps, so that the session has this time. */
static BOOL WINAPI on_stop(DWORD kind)
{
    bool is_key = kind == CTRL_C_EVENT || kind == CTRL_BREAK_EVENT;
    if (is_key && is_second(kind))
        return FALSE;
    note(STOP_SIGNAL);
    if (!is_key)
        Sleep(INFINITE);
    return TRUE;
}

static VOID CALLBACK on_time(PVOID none, BOOLEAN is_timer)
{
    (void)none;
    (void)is_timer;
    note(STOP_TIME);
}

void stop_catch(uint32_t seconds)
{
    if (event == NULL)
        event = CreateEventW(NULL, TRUE, FALSE, NULL);
    SetConsoleCtrlHandler(on_stop, TRUE);
    if (seconds != 0 && !CreateTimerQueueTimer(&timer, NULL, on_time, NULL, seconds * 1000u, 0, WT_EXECUTEONLYONCE))
        timer = NULL;
}

void stop_no_more(void)
{
    if (timer != NULL && DeleteTimerQueueTimer(NULL, timer, INVALID_HANDLE_VALUE))
        timer = NULL;
}
