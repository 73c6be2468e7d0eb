/* SPDX-License-Identifier: MIT OR Apache-2.0 */
/* Handles signals. The handler stores the signal and writes to a pipe that each wait polls, so a signal that arrives just before a wait
 * ends that wait too. A signal also interrupts a transfer of endpoint 0. */
#define _GNU_SOURCE
#include "stop.h"
#include "status.h"

#include <errno.h>
#include <fcntl.h>
#include <signal.h>
#include <stddef.h>
#include <string.h>
#include <unistd.h>

static const int kinds[] = {SIGTERM, SIGINT, SIGHUP};
static volatile sig_atomic_t came;
static int wake[2] = {-1, -1};

static void on_stop(int number)
{
    int before = errno;
    ssize_t written;
    came = number;
    written = write(wake[1], "", 1);
    (void)written;
    errno = before;
}

_Noreturn void stop_lost(void)
{
    static const char line[] = "dfu-gadget: the medium can't be read any more\n";
    ssize_t written = write(STDERR_FILENO, line, sizeof line - 1);
    (void)written;
    _exit(STATUS_MEDIUM);
}

/* SIGBUS means that a page of the mapping can't be read, because the disk failed or the file was truncated. */
static void on_lost(int number)
{
    (void)number;
    stop_lost();
}

bool stop_catch(void)
{
    struct sigaction action = {.sa_handler = on_stop}, now;
    if (pipe2(wake, O_CLOEXEC | O_NONBLOCK) != 0)
        return false;
    sigfillset(&action.sa_mask);
    for (size_t at = 0; at < sizeof kinds / sizeof kinds[0]; at++)
        if (sigaction(kinds[at], NULL, &now) == 0 && now.sa_handler != SIG_IGN)
            sigaction(kinds[at], &action, NULL);
    signal(SIGPIPE, SIG_IGN);
    return true;
}

int stop_signal(void)
{
    return came;
}

int stop_descriptor(void)
{
    return wake[0];
}

void stop_forget(void)
{
    struct sigaction now;
    for (size_t at = 0; at < sizeof kinds / sizeof kinds[0]; at++)
        if (sigaction(kinds[at], NULL, &now) == 0 && now.sa_handler == on_stop)
            signal(kinds[at], SIG_DFL);
    signal(SIGPIPE, SIG_DFL);
    signal(SIGBUS, SIG_DFL);
}

void stop_at_lost_medium(void)
{
    struct sigaction action = {.sa_handler = on_lost};
    sigaction(SIGBUS, &action, NULL);
}
