/* SPDX-License-Identifier: MIT OR Apache-2.0 */
/* Handles signals and the time limit of a session. The handler stores the cause and writes to a pipe that each wait polls. Therefore a
 * signal that arrives just before a wait ends that wait too, whichever thread of libusb receives it. */
#define _POSIX_C_SOURCE 200809L
#include "../stop.h"
#include "../clock.h"
#include "wake.h"

#include <errno.h>
#include <fcntl.h>
#include <stdbool.h>
#include <stddef.h>
#include <unistd.h>

#define SAME_MS 100 /* time within which a repeated signal counts as the first one */

volatile sig_atomic_t stop_cause;
static const int kinds[] = {SIGINT, SIGTERM, SIGHUP, SIGALRM};
static int64_t came_ms[sizeof kinds / sizeof kinds[0]]; /* arrival of the first signal of each kind; 0 if none arrived */
static int wake[2] = {-1, -1};
static bool is_timed;

int stop_descriptor(void)
{
    return wake[0];
}

/* A second signal of a kind ends the program. But timeout(1) sends each signal twice, to its child and to the process group, so one within
 * SAME_MS of the first doesn't count. */
static void end_at_second(int number)
{
    int64_t now_ms = clock_ms() + 1;
    for (size_t at = 0; at < sizeof kinds / sizeof kinds[0]; at++) {
        if (kinds[at] != number)
            continue;
        if (came_ms[at] != 0 && now_ms - came_ms[at] >= SAME_MS) {
            signal(number, SIG_DFL);
            raise(number);
        }
        if (came_ms[at] == 0)
            came_ms[at] = now_ms;
    }
}

static void on_stop(int number)
{
    int before = errno;
    ssize_t written;
    end_at_second(number);
    if (stop_cause == STOP_NONE)
        stop_cause = number == SIGALRM ? STOP_TIME : STOP_SIGNAL;
    written = write(wake[1], "", 1);
    (void)written;
    errno = before;
}

/* Without a pipe a signal still ends a wait, unless it arrives just before the wait. */
static void make_pipe(void)
{
    if (wake[0] >= 0 || pipe(wake) != 0)
        return;
    for (int at = 0; at < 2; at++) {
        fcntl(wake[at], F_SETFD, FD_CLOEXEC);
        fcntl(wake[at], F_SETFL, O_NONBLOCK);
    }
}

static void catch_one(int number)
{
    struct sigaction action = {.sa_handler = on_stop, .sa_flags = SA_RESTART};
    sigfillset(&action.sa_mask);
    sigaction(number, &action, NULL);
}

static bool is_ignored(int number)
{
    struct sigaction now;
    return sigaction(number, NULL, &now) == 0 && now.sa_handler == SIG_IGN;
}

/* SIGTERM and SIGHUP stay ignored if they were ignored when the program started, for example by nohup. SIGPIPE is ignored, because a closed
 * reader, such as `head`, must not stop a session. */
void stop_catch(uint32_t seconds)
{
    sigset_t alarms;
    make_pipe();
    catch_one(SIGINT);
    if (!is_ignored(SIGTERM))
        catch_one(SIGTERM);
    if (!is_ignored(SIGHUP))
        catch_one(SIGHUP);
    signal(SIGPIPE, SIG_IGN);
    is_timed = seconds != 0;
    if (!is_timed)
        return;
    catch_one(SIGALRM);
    sigemptyset(&alarms);
    sigaddset(&alarms, SIGALRM);
    sigprocmask(SIG_UNBLOCK, &alarms, NULL);
    alarm(seconds);
}

void stop_anew(void)
{
    for (size_t at = 0; at < sizeof kinds / sizeof kinds[0]; at++)
        came_ms[at] = 0;
    for (int at = 0; at < 2; at++) {
        if (wake[at] >= 0)
            close(wake[at]);
        wake[at] = -1;
    }
    stop_cause = STOP_NONE;
}

void stop_no_more(void)
{
    if (is_timed)
        alarm(0);
}
