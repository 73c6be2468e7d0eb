/* Tries the paths of the inline calls of include/, up to some number of operations, over stand-ins. It prints the number of paths, or the
 * first faulty one. Argument: the maximum number of operations of a path. */
#include <limits.h>
#include <stdlib.h>

#include "forwards.h"
#include "memory.h"
#include "plans.h"
#include "runtime.h"

/* Choices of a path in addition to its plan: a state and a pending time, a setup, or no driver. */
enum { STATES = 1, SETUPS = 2, NO_DRIVER = 4 };

static const struct inline_call {
    const char *name;
    const struct stage *plan;
    int32_t (*make)(void);
    int has;
} inline_calls[] = {{"dfu_device_answered", the_work, answered, STATES | NO_DRIVER},
                    {"dfu_device_work", the_work, work, STATES},
                    {"dfu_device_serve", serving, serve, STATES | SETUPS},
                    {"dfu_device_reset", resetting, reset, STATES},
                    {"dfu_device_format", formatting, format, 0},
                    {"dfu_device_power_on_or_format", starting_up, start_up, 0},
                    {"dfu_trial_boot", booting, boot, 0},
                    {"dfu_trial_boot_from", booting_from, boot_from, 0},
                    {"dfu_trial_accept", accepting, accept, 0},
                    {"dfu_trial_give_up", giving_up, give_up, 0},
                    {"dfu_trial_transfer", downloading, transfer, STATES | SETUPS},
                    {"dfu_trial_format", formatting_a_trial, format_trial, 0}};

/* Chooses a state, and a pending time or an error instead. Paths have full length only in dfuDNBUSY and dfuIDLE with a pending time of 7
 * ms; the others lead to the same calls, and get one operation. */
static void pick_state(void)
{
    static const int32_t states[] = {DFU_STATE_DNBUSY,      DFU_STATE_IDLE,     DFU_STATE_APP_IDLE,    DFU_STATE_DNLOAD_SYNC,
                                     DFU_STATE_ERROR,       DFU_STATE_MANIFEST, DFU_STATE_DNLOAD_IDLE, DFU_STATE_MANIFEST_SYNC,
                                     DFU_STATE_UPLOAD_IDLE, DFU_NO_DEVICE};
    static const int32_t dues[] = {7, 1, INT_MAX, 0, DFU_NO_CONFIG, DFU_STALL};
    const unsigned state = pick(sizeof states / sizeof states[0]), due = pick(sizeof dues / sizeof dues[0]);
    state_now = states[state];
    due_now = dues[due];
    if (state > 1 || due > 0)
        operation_bound = 1;
}

static void pick_setup(void)
{
    static const uint8_t setups[][8] = {
        {0x21, DFU_DNLOAD, 0, 0, 0, 0, 64, 0}, {0x21, DFU_DNLOAD, 0, 0, 0, 0, 65, 0}, {0x21, DFU_DNLOAD, 0, 0, 0, 0, 0, 0},
        {0x21, DFU_DNLOAD, 0, 0, 0, 0, 0, 1},  {0xa1, DFU_UPLOAD, 0, 0, 0, 0, 64, 0}, {0xa1, DFU_UPLOAD, 0, 0, 0, 0, 255, 255},
        {0x21, DFU_UPLOAD, 0, 0, 0, 0, 16, 0}, {0xa1, DFU_DNLOAD, 0, 0, 0, 0, 16, 0}, {0xa1, DFU_GETSTATUS, 0, 0, 0, 0, 6, 0},
        {0x21, DFU_ABORT, 0, 0, 0, 0, 0, 0},   {0x41, DFU_DNLOAD, 0, 0, 0, 0, 16, 0}, {0, 6, 0, 1, 0, 0, 255, 1}};
    const unsigned which = pick(sizeof setups / sizeof setups[0]);
    memcpy(setup, setups[which], sizeof setup);
    if (which > 0)
        operation_bound = 1;
}

/* Returns the plan for the current setup. */
static const struct stage *plan_of(const struct inline_call *it)
{
    if (it->plan == serving && sent() > config.transfer)
        return serving_long;
    if (it->plan == downloading && setup[0] == 0xa1)
        return uploading;
    return it->plan;
}

/* After dfu_trial_boot and dfu_trial_boot_from, checks that the place is that of the image to start. */
static void is_started(int32_t n)
{
    const uint32_t wanted = n != 0 ? 77 : operations == 0 ? given.run.at : given.otherwise.at;
    holds(place.at == wanted, "another image is started");
}

static void try_plan(const struct inline_call *it)
{
    while (next_path(it->name)) {
        hand_in((it->has & NO_DRIVER) != 0 || pick(2) == 0);
        if ((it->has & STATES) != 0)
            pick_state();
        if ((it->has & SETUPS) != 0)
            pick_setup();
        if (it->plan == serving)
            given.length = sent();
        follow(plan_of(it), device.driver != NULL && (it->has & NO_DRIVER) == 0);
        const int32_t n = it->make();
        returned(n);
        if (it->plan == booting || it->plan == booting_from)
            is_started(n);
    }
}

/* Tries dfu_device_settle: it carries out pending operations, and returns any other number unchanged. */
static void try_settle(void)
{
    static const int32_t numbers[] = {DFU_WRITE_PENDING, 0, 6, DFU_STALL, DFU_BUSY, DFU_NO_DEVICE};
    while (next_path("dfu_device_settle")) {
        hand_in(pick(2) == 0);
        const int32_t n = numbers[pick(6)];
        follow_due();
        if (n != DFU_WRITE_PENDING || device.driver == NULL)
            over(n);
        returned(dfu_device_settle(&device, n, out, sizeof out));
    }
}

/* Tries dfu_install_settle: it returns DFU_NOT_WRITTEN after an erase and its programs for each sector, and the programs of one more
 * sector. */
static void try_install(void)
{
    static const struct {
        uint32_t sector, length;
        unsigned most;
    } areas[] = {{256, 1, 3}, {256, 256, 3}, {256, 257, 5}, {512, 40, 5}};
    while (next_path("dfu_install_settle")) {
        const unsigned which = pick(sizeof areas / sizeof areas[0]);
        hand_in(pick(2) == 0);
        install.area.sector = areas[which].sector;
        given.length = areas[which].length;
        most_operations = areas[which].most;
        operation_bound = UINT_MAX;
        follow(installing, install.driver != NULL);
        returned(dfu_install_settle(&install, image, areas[which].length));
    }
}

/* Tries dfu_home_settle: the place is the first slot's data, with the length in its header. The gate is as long as the largest of 16 bytes,
 * unit and sector, and each of the three is the largest once. */
static void try_home(void)
{
    static const struct {
        uint32_t unit, sector, gate;
    } parts[] = {{16, 0, 16}, {64, 0, 64}, {1, 16, 16}, {16, 64, 64}};
    static const uint8_t length[] = {1, 2, 3, 4};
    static struct dfu_config part;
    while (next_path("dfu_home_settle")) {
        const unsigned which = pick(sizeof parts / sizeof parts[0]);
        hand_in(pick(2) == 0);
        part = config;
        part.unit = parts[which].unit;
        part.sector = parts[which].sector;
        device.config = given.config = &part;
        memset(flash, 0, sizeof flash);
        memcpy(flash + parts[which].gate + 4, length, sizeof length);
        given.home = NULL;
        given.home_count = 0;
        operation_bound = which == 0 ? operation_bound : 1;
        follow(bringing_home, device.driver != NULL);
        const int32_t n = dfu_home_settle(&device, &place);
        returned(n);
        holds(n == 0 ? place.at == 2 * parts[which].gate && place.length == 0x04030201 : place.at == 77 && place.length == 77,
              "another image is started");
    }
}

/* Tries dfu_home_transfer: first the work, then may_download if the setup begins a download. */
static void try_home_transfer(void)
{
    while (next_path("dfu_home_transfer")) {
        hand_in(pick(2) == 0);
        pick_state();
        pick_setup();
        const int is_download = setup[0] == 0x21 && setup[1] == DFU_DNLOAD;
        follow(is_download && state_now == DFU_STATE_IDLE ? asking_home : the_work, device.driver != NULL);
        if (!is_download)
            over(0);
        returned(dfu_home_transfer(&device, setup));
    }
}

int main(int count, char **words)
{
    most = count > 1 ? (unsigned)atoi(words[1]) : 5;
    try_forwards();
    try_lengths();
    for (unsigned i = 0; i < sizeof inline_calls / sizeof inline_calls[0]; i++)
        try_plan(&inline_calls[i]);
    try_settle();
    try_driver();
    try_memory();
    try_runtime(most > 2 ? 4 : 3);
    try_install();
    try_home();
    try_home_transfer();
    printf("%lu paths of at most %u operations, %lu checks\n", paths, most, checks);
    return 0;
}
