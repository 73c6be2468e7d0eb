/* Tests the clock of the stand-in's device by requests that are early, late or frequent, through the calls of the bus.
 *
 * usage: asker busy|detach MS EACH    (the settings are those of the stand-in, in tests/lib/usb/settings.c)
 *
 * busy: sends a block, and a GETSTATUS, by which the device begins to write it. For MS milliseconds after the answer it passes the time to
 * the device every EACH microseconds; then it sends a GETSTATUS.
 * detach: sends a DETACH, a GETSTATE every EACH microseconds for MS milliseconds after the answer, and one more.
 * It prints the last state, or `stall`, and the microseconds until then. */
#include "../abi.h"
#include "../bus.h"

#include <stdio.h>
#include <stdlib.h>
#include <string.h>
#include <time.h>

enum { DETACH, DNLOAD, GETSTATUS = 3, GETSTATE = 5 };

static uint64_t now_us(void)
{
    struct timespec now;
    clock_gettime(CLOCK_MONOTONIC, &now);
    return (uint64_t)now.tv_sec * 1000000u + (uint64_t)now.tv_nsec / 1000u;
}

static void rest(unsigned us)
{
    const struct timespec time = {us / 1000000u, (long)(us % 1000000u) * 1000};
    nanosleep(&time, NULL);
}

/* Makes a transfer as a program does: the elapsed time is passed to the device first. */
static int transfer(uint8_t kind, uint8_t request, uint8_t value, uint8_t *data, uint16_t length)
{
    const uint8_t setup[8] = {kind, request, value, 0, 0, 0, (uint8_t)length, (uint8_t)(length >> 8)};
    bus_pass_time();
    return bus_transfer(setup, data, length, 1000);
}

static void demand(uint8_t request, uint8_t value, uint8_t *data, uint16_t length)
{
    if (transfer(0x21, request, value, data, length) != length) {
        fprintf(stderr, "asker: the device refused request %u\n", (unsigned)request);
        exit(1);
    }
}

/* Returns bState, or -1 for a stall. */
static int state_by(uint8_t request)
{
    uint8_t answer[6] = {0};
    uint16_t length = request == GETSTATUS ? 6 : 1;
    return transfer(0xa1, request, 0, answer, length) == length ? answer[request == GETSTATUS ? 4 : 0] : -1;
}

int main(int count, char **words)
{
    uint8_t block[8] = "a block";
    if (count != 4 || (strcmp(words[1], "busy") != 0 && strcmp(words[1], "detach") != 0))
        return 2;
    bool is_busy = strcmp(words[1], "busy") == 0;
    uint64_t wait_us = strtoul(words[2], NULL, 10) * 1000u;
    unsigned each_us = (unsigned)strtoul(words[3], NULL, 10);
    bus_start();
    if (is_busy) {
        demand(DNLOAD, 0, block, sizeof block);
        state_by(GETSTATUS);
    } else {
        demand(DETACH, 255, NULL, 0);
    }
    for (uint64_t began = now_us();;) {
        rest(each_us);
        bool is_last = now_us() - began >= wait_us;
        bus_pass_time();
        if (is_busy && !is_last)
            continue;
        int state = state_by(is_busy ? GETSTATUS : GETSTATE);
        if (!is_last)
            continue;
        uint64_t took = now_us() - began;
        if (state < 0)
            printf("stall %llu\n", (unsigned long long)took);
        else
            printf("%d %llu\n", state, (unsigned long long)took);
        return 0;
    }
}
