/* Parts that the programs over raw-gadget share: a clock, a log, waits, and the switch to another program. */
#define _GNU_SOURCE
#include "board.h"
#include <errno.h>
#include <semaphore.h>
#include <stdarg.h>
#include <stdio.h>
#include <stdlib.h>
#include <string.h>
#include <time.h>
#include <unistd.h>

static sem_t wake;
static FILE *out;

uint32_t now_ms(void)
{
    struct timespec t;
    clock_gettime(CLOCK_MONOTONIC, &t);
    return (uint32_t)(t.tv_sec * 1000 + t.tv_nsec / 1000000);
}

uint32_t tusb_time_millis_api(void)
{
    return now_ms();
}

void board_log(const char *format, ...)
{
    va_list words;
    if (out == NULL && (getenv("LOG") == NULL || (out = fopen(getenv("LOG"), "ae")) == NULL))
        return;
    va_start(words, format);
    fprintf(out, "%u ", now_ms());
    vfprintf(out, format, words);
    fputc('\n', out);
    fflush(out);
    va_end(words);
}

void board_begin(void)
{
    const tusb_rhport_init_t init = {.role = TUSB_ROLE_DEVICE, .speed = TUSB_SPEED_HIGH};
    sem_init(&wake, 0, 0);
    if (!tusb_rhport_init(0, &init))
        exit(1);
}

void board_wait(void)
{
    struct timespec until;
    clock_gettime(CLOCK_REALTIME, &until);
    until.tv_nsec += 2000000;
    if (until.tv_nsec >= 1000000000) {
        until.tv_nsec -= 1000000000;
        until.tv_sec++;
    }
    sem_timedwait(&wake, &until);
}

void board_wake(void)
{
    sem_post(&wake);
}

void board_become(const char *program, const char *path)
{
    board_log("becomes %s", program);
    usleep(100000);
    execl(program, program, path, (char *)NULL);
    fprintf(stderr, "%s: %s\n", program, strerror(errno));
    exit(1);
}
