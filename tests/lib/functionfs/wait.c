/* Plays the host while the program waits. */
#include "kernel.h"

#include <poll.h>

int __real_poll(struct pollfd *waits, nfds_t count, int timeout);
int __wrap_poll(struct pollfd *waits, nfds_t count, int timeout);

static int look(struct pollfd *waits, nfds_t count, int timeout)
{
    int ready = 0;
    for (nfds_t at = 0; at < count; at++) {
        const struct endpoint *endpoint = endpoint_of(waits[at].fd);
        waits[at].revents = 0;
        if (endpoint != NULL && (endpoint->count > 0 || endpoint->is_pending || endpoint->is_cancelled))
            waits[at].revents = POLLIN;
        else if (waits[at].fd >= 0 && waits[at].fd == state_file && is_state_written)
            waits[at].revents = POLLPRI | POLLERR;
        else if (endpoint == NULL && waits[at].fd >= 0 && waits[at].fd != state_file)
            __real_poll(&waits[at], 1, timeout);
        ready += waits[at].revents != 0;
    }
    return ready;
}

/* Returns true if the program waits for another real file in addition to the pipe of its signals. */
static bool has_child(const struct pollfd *waits, nfds_t count)
{
    int real = 0;
    for (nfds_t at = 0; at < count; at++)
        real += waits[at].fd >= 0 && endpoint_of(waits[at].fd) == NULL && waits[at].fd != state_file;
    return real > 1;
}

/* Simulated time passes only here, if no event is ready. */
int __wrap_poll(struct pollfd *waits, nfds_t count, int timeout)
{
    static int64_t rest_ms;
    int ready = look(waits, count, 0);
    while (ready == 0 && timeout != 0) {
        int64_t step;
        if (rest_ms == 0 && host_play(&rest_ms)) {
            ready = look(waits, count, 0);
            continue;
        }
        if (rest_ms < 0) { /* a child process runs in real time */
            rest_ms = 0;
            for (int turn = 0; ready == 0 && turn < 5000 && has_child(waits, count); turn++)
                ready = look(waits, count, 1);
            continue;
        }
        step = timeout > 0 && timeout < rest_ms ? timeout : rest_ms;
        now_ms += step;
        rest_ms -= step;
        if (timeout > 0 && step == timeout)
            return 0;
        timeout -= timeout > 0 ? (int)step : 0;
    }
    return ready;
}
