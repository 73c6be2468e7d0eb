/* SPDX-License-Identifier: MIT OR Apache-2.0 */
#define _GNU_SOURCE
#include "program.h"
#include "messages.h"
#include "stop.h"

#include <errno.h>
#include <fcntl.h>
#include <inttypes.h>
#include <stdbool.h>
#include <stdio.h>
#include <sys/syscall.h>
#include <sys/wait.h>
#include <unistd.h>

/* Opens /dev/null as the program's standard input. If descriptor 0 was closed, open already returns 0, and it must stay open. */
static bool take_no_input(void)
{
    int nothing = open("/dev/null", O_RDONLY);
    bool is_input = nothing >= 0 && dup2(nothing, STDIN_FILENO) >= 0;
    if (nothing > STDIN_FILENO)
        close(nothing);
    return is_input;
}

static void become(const char *program, const char *medium, uint32_t at, uint32_t length)
{
    char begin[16], count[16], own[4096], named[4096];
    char *words[] = {own, named, begin, count, NULL};
    bool fits =
        snprintf(own, sizeof own, "%s", program) < (int)sizeof own && snprintf(named, sizeof named, "%s", medium) < (int)sizeof named;
    snprintf(begin, sizeof begin, "%" PRIu32, at);
    snprintf(count, sizeof count, "%" PRIu32, length);
    setpgid(0, 0);
    stop_forget();
    if (fits && take_no_input() && dup2(STDERR_FILENO, STDOUT_FILENO) >= 0)
        execvp(own, words);
    say_failed(program, "can't be run");
    _exit(127);
}

int program_start(const char *program, const char *medium, uint32_t at, uint32_t length, int *child)
{
    int process = fork();
    *child = -1;
    if (process == 0)
        become(program, medium, at, length);
    if (process < 0) {
        say_failed(program, "can't be run");
        return -1;
    }
    *child = (int)syscall(SYS_pidfd_open, process, 0);
    say_event("runs: %s, process %d, image at %" PRIu32 " of %" PRIu32 " bytes", program, process, at, length);
    return process;
}

int program_end(int process)
{
    int status = 0;
    while (waitpid(process, &status, 0) < 0 && errno == EINTR)
        continue;
    if (WIFEXITED(status)) {
        say_event("ended: process %d with status %d", process, WEXITSTATUS(status));
        return WEXITSTATUS(status);
    }
    say_event("ended: process %d by signal %d", process, WTERMSIG(status));
    return -1;
}
