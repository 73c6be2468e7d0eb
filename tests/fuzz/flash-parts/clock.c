#define _GNU_SOURCE
#include "clock.h"
#include "books.h"
#include "bus.h"
#include "random.h"
#include "temper.h"

#include <errno.h>
#include <poll.h>
#include <signal.h>
#include <time.h>

#define MOST_WAITS 2000 /* maximum number of waits after the last possible event on the bus */

static int64_t now_ms = 1000, came_ms = -1, alarm_ms = -1;

int64_t clock_now(void)
{
    return now_ms;
}

int64_t signal_came(void)
{
    return came_ms;
}

/* Sends the program a signal. This ends the program if it has no handler for it, and may end it if the same signal was sent before. */
static void send(int number)
{
    static bool was_sent[64];
    struct sigaction now;
    sigaction(number, NULL, &now);
    trace("signal %d", number);
    if (now.sa_handler == SIG_DFL || was_sent[number])
        outcome->is_killed = true;
    was_sent[number] = true;
    if (now.sa_handler != SIG_DFL && now.sa_handler != SIG_IGN && came_ms < 0)
        came_ms = now_ms;
    raise(number);
}

void signal_comes(void)
{
    static const int signals[] = {SIGINT, SIGINT, SIGTERM, SIGHUP};
    send(signals[below(4)]);
}

/* Advances the time, and sends SIGALRM once a set alarm expires. */
void clock_pass(uint64_t ms)
{
    int64_t end = now_ms + (int64_t)ms;
    if (alarm_ms >= 0 && alarm_ms <= end) {
        uint64_t before = alarm_ms > now_ms ? (uint64_t)(alarm_ms - now_ms) : 0;
        now_ms += (int64_t)before;
        bus_elapse(before);
        alarm_ms = -1;
        send(SIGALRM);
    }
    bus_elapse((uint64_t)(end - now_ms));
    now_ms = end;
}

/* Returns true if a signal must end the current wait: at random, or because no other event is possible any more. */
static bool is_cut(void)
{
    static unsigned waits;
    waits += bus.is_over;
    return chance(temper.stops / 10) || (waits > MOST_WAITS && waits % 100 == 0);
}

/* Lets time pass. Returns the time that remains because a signal ended the wait, or 0. */
static uint64_t wait_ms(uint64_t ms)
{
    uint64_t part = is_cut() && ms > 0 ? below(ms > UINT32_MAX ? UINT32_MAX : (uint32_t)ms) : ms;
    bool is_alarm = alarm_ms >= 0 && alarm_ms - now_ms <= (int64_t)part;
    trace("a wait of %llu ms", (unsigned long long)ms);
    if (is_alarm)
        part = alarm_ms > now_ms ? (uint64_t)(alarm_ms - now_ms) : 0;
    clock_pass(part);
    if (!is_alarm && part < ms)
        signal_comes();
    return ms - part;
}

int __wrap_clock_gettime(clockid_t clock, struct timespec *now);
int __wrap_nanosleep(const struct timespec *wanted, struct timespec *left);
int __wrap_poll(struct pollfd *files, nfds_t count, int ms);
unsigned __wrap_alarm(unsigned seconds);
int __real_poll(struct pollfd *files, nfds_t count, int ms);

int __wrap_clock_gettime(clockid_t clock, struct timespec *now)
{
    (void)clock;
    *now = (struct timespec){now_ms / 1000, now_ms % 1000 * 1000000};
    return 0;
}

int __wrap_nanosleep(const struct timespec *wanted, struct timespec *left)
{
    uint64_t ms = (uint64_t)wanted->tv_sec * 1000 + (uint64_t)wanted->tv_nsec / 1000000;
    ms = wait_ms(ms);
    if (ms == 0)
        return 0;
    *left = (struct timespec){(time_t)(ms / 1000), (long)(ms % 1000 * 1000000)};
    errno = EINTR;
    return -1;
}

/* A readable file ends the wait, such as a pipe to which a signal handler wrote. */
int __wrap_poll(struct pollfd *files, nfds_t count, int ms)
{
    int ready = __real_poll(files, count, 0);
    if (ready != 0)
        return ready;
    if (wait_ms(ms < 0 ? UINT32_MAX : (uint64_t)ms) == 0)
        return __real_poll(files, count, 0);
    errno = EINTR;
    return -1;
}

unsigned __wrap_alarm(unsigned seconds)
{
    unsigned before = alarm_ms < 0 ? 0 : (unsigned)((alarm_ms - now_ms) / 1000);
    alarm_ms = seconds == 0 ? -1 : now_ms + (int64_t)seconds * 1000;
    return before;
}
