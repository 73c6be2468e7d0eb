/* SPDX-License-Identifier: MIT OR Apache-2.0 */
/* The host waits for the answer to its last DNLOAD during the check. Linux gives up a request after 5 seconds, so a hanging program is
 * killed before that, and the image is refused. */
#define _GNU_SOURCE
#include "check.h"
#include "clock.h"
#include "dfu_device.h"
#include "program.h"
#include "messages.h"
#include "stop.h"

#include <errno.h>
#include <poll.h>
#include <signal.h>
#include <stdbool.h>
#include <stddef.h>
#include <time.h>
#include <unistd.h>

/* Returns true if the program ended within CHECK_MS, and before a signal arrived. */
static bool is_over(int child)
{
    struct pollfd waits[] = {{.fd = child, .events = POLLIN}, {.fd = stop_descriptor(), .events = POLLIN}};
    int64_t until = clock_ms() + CHECK_MS, left;
    int ready = -1;
    while (ready < 0 && stop_signal() == 0 && (left = until - clock_ms()) > 0) {
        struct timespec most = {.tv_sec = (time_t)(left / 1000), .tv_nsec = (long)(left % 1000) * 1000000};
        ready = ppoll(waits, 2, &most, NULL);
        if (ready < 0 && errno != EINTR)
            return false;
    }
    return ready > 0 && waits[0].revents != 0;
}

uint8_t check_image(const struct check *check, uint32_t at, uint32_t length)
{
    int child, status, process;
    if (check->program == NULL)
        return 0;
    process = program_start(check->program, check->medium, at, length, &child);
    if (process < 0)
        return DFU_STATUS_ERR_FILE;
    if (child < 0 || !is_over(child)) {
        say_wrong(check->program, "did not end in time: the image is refused");
        kill(-process, SIGKILL);
        kill(process, SIGKILL);
    }
    if (child >= 0)
        close(child);
    status = program_end(process);
    return status == 0 ? 0 : status == 2 ? DFU_STATUS_ERR_TARGET : DFU_STATUS_ERR_FILE;
}
