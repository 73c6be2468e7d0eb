/* A simulated clock for programs that are run many times: a wait ends at once, and advances the clock. The stand-in for libusb, which is
 * linked to the program, reads the same clock. */
#define _GNU_SOURCE
#include <poll.h>
#include <stdint.h>
#include <sys/syscall.h>
#include <time.h>
#include <unistd.h>

static int64_t passed_ns;

int clock_gettime(clockid_t clock, struct timespec *now)
{
    int64_t ns;
    if (syscall(SYS_clock_gettime, clock, now) != 0)
        return -1;
    ns = (int64_t)now->tv_nsec + passed_ns % 1000000000;
    now->tv_sec += (time_t)(passed_ns / 1000000000 + ns / 1000000000);
    now->tv_nsec = (long)(ns % 1000000000);
    return 0;
}

int nanosleep(const struct timespec *wanted, struct timespec *left)
{
    (void)left;
    passed_ns += (int64_t)wanted->tv_sec * 1000000000 + wanted->tv_nsec;
    return 0;
}

int poll(struct pollfd *files, nfds_t count, int ms)
{
    struct timespec none = {0, 0};
    long ready = syscall(SYS_ppoll, files, count, &none, NULL, 8);
    if (ready == 0 && ms > 0)
        passed_ns += (int64_t)ms * 1000000;
    return (int)ready;
}
