/* Tests the inline calls of dfu_runtime.h, which make no proved call: each list of a few steps is compared with the rows of USB DFU 1.1,
 * A.2.1 and A.2.2. */
#ifndef RUNTIME_H
#define RUNTIME_H
#include "dfu_runtime.h"
#include "monitor.h"

#define OWN 3

/* A request. For appIDLE and for appDETACH: the number of bytes of the answer, or DFU_STALL, and the next state. */
struct row {
    uint8_t setup[8];
    int32_t number[2];
    uint32_t state[2];
};
static const struct row rows[] = {
    {{0xa1, DFU_GETSTATUS, 0, 0, OWN, 0, 6, 0}, {6, 6}, {0, 1}},
    {{0xa1, DFU_GETSTATUS, 0, 0, OWN, 0, 5, 1}, {6, 6}, {0, 1}},
    {{0xa1, DFU_GETSTATUS, 0, 0, OWN, 0, 5, 0}, {5, 5}, {0, 1}},
    {{0xa1, DFU_GETSTATE, 0, 0, OWN, 0, 1, 0}, {1, 1}, {0, 1}},
    {{0xa1, DFU_GETSTATE, 0, 0, OWN, 0, 0, 1}, {1, 1}, {0, 1}},
    {{0xa1, DFU_GETSTATE, 0, 0, OWN, 0, 0, 0}, {0, 0}, {0, 1}},
    {{0x21, DFU_DETACH, 3, 0, OWN, 0, 0, 0}, {0, DFU_STALL}, {1, 0}},
    {{0x21, DFU_DETACH, 3, 1, OWN, 0, 0, 0}, {0, DFU_STALL}, {1, 0}},
    {{0x21, DFU_DETACH, 3, 0, OWN, 0, 1, 0}, {DFU_STALL, DFU_STALL}, {0, 0}},
    {{0x21, DFU_DETACH, 3, 0, OWN, 0, 0, 1}, {DFU_STALL, DFU_STALL}, {0, 0}},
    {{0xa1, DFU_DETACH, 3, 0, OWN, 0, 0, 0}, {DFU_STALL, DFU_STALL}, {0, 0}},
    {{0x21, DFU_GETSTATUS, 0, 0, OWN, 0, 6, 0}, {DFU_STALL, DFU_STALL}, {0, 0}},
    {{0x21, DFU_GETSTATE, 0, 0, OWN, 0, 1, 0}, {DFU_STALL, DFU_STALL}, {0, 0}},
    {{0x21, DFU_DNLOAD, 0, 0, OWN, 0, 8, 0}, {DFU_STALL, DFU_STALL}, {0, 0}},
    {{0x21, DFU_DETACH, 3, 0, OWN + 1, 0, 0, 0}, {DFU_STALL, DFU_STALL}, {0, 1}},
    {{0x21, DFU_DETACH, 3, 0, OWN, 1, 0, 0}, {DFU_STALL, DFU_STALL}, {0, 1}},
    {{0x41, DFU_DETACH, 3, 0, OWN, 0, 0, 0}, {DFU_STALL, DFU_STALL}, {0, 1}},
};
#define ROWS (sizeof rows / sizeof rows[0])
/* wDetachTimeOut of the device, and times that pass. */
static const uint16_t timeouts[] = {2, 5};
static const uint32_t times[] = {0, 1, 2, 3, 0xffffffff};

static struct dfu_runtime runtime;
/* State and remaining time that a row expects. */
static uint32_t state_wanted, left_wanted;

static void request(const struct row *row)
{
    static const uint8_t untouched[6] = {9, 9, 9, 9, 9, 9};
    uint8_t answer[6] = {9, 9, 9, 9, 9, 9}, bytes[6] = {0};
    const uint32_t was = state_wanted, asked = row->setup[2] + 256u * row->setup[3];
    const int32_t n = dfu_runtime_handle(&runtime, row->setup, answer);
    holds(n == row->number[was], "another answer");
    state_wanted = row->state[was];
    if (was == 0 && state_wanted == 1)
        left_wanted = asked < runtime.detach_ms ? asked : runtime.detach_ms;
    bytes[row->setup[1] == DFU_GETSTATUS ? 4 : 0] = (uint8_t)state_wanted;
    if (n > 0)
        holds(memcmp(answer, bytes, (size_t)n) == 0, "other bytes");
    if (n < 0 || row->setup[0] == 0x21)
        holds(memcmp(answer, untouched, sizeof answer) == 0, "bytes without an answer");
}

static void time_passes(uint32_t ms)
{
    const int leaves = state_wanted == 1 && ms > 0 && (runtime.attributes & DFU_WILL_DETACH) != 0;
    holds((dfu_runtime_elapse(&runtime, ms) != 0) == leaves, "it leaves for the bootloader, or stays, at the wrong time");
    if (leaves || (state_wanted == 1 && ms >= left_wanted && ms > 0))
        state_wanted = 0;
    left_wanted -= state_wanted == 1 ? ms : 0;
}

static void step(void)
{
    const unsigned what = pick(ROWS + sizeof times / sizeof times[0] + 1);
    if (what < ROWS)
        request(&rows[what]);
    else if (what < ROWS + sizeof times / sizeof times[0])
        time_passes(times[what - ROWS]);
    else {
        holds((dfu_runtime_usb_reset(&runtime) != 0) == (state_wanted == 1), "a reset leads to the wrong place");
        state_wanted = 0;
    }
    holds(runtime.state == state_wanted, "another state");
}

/* Tries all lists of this many steps. */
static void try_runtime(unsigned steps)
{
    while (next_path("dfu_runtime.h")) {
        memset(&runtime, 0, sizeof runtime);
        runtime.attributes = pick(2) ? 7 : 15;
        runtime.detach_ms = timeouts[pick(2)];
        runtime.interface_number = OWN;
        state_wanted = left_wanted = 0;
        for (unsigned i = 0; i < steps; i++)
            step();
        path_ends();
    }
}

#endif
