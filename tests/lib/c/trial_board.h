/* A board that runs new images on trial, in simulated flash. Power may be lost at any point of its work; the points are counted from 0. */
#include "dfu_host.h"
#include "dfu_trial.h"
#include <setjmp.h>
#include <stdio.h>
#include <string.h>

enum { SECTOR = 256, CAPACITY = 256, SLOT = 2 * SECTOR + CAPACITY, TRANSFER = 64, LENGTH = 150 };
enum { BASE = 7, OTHER = 20, PAYLOAD = 33 }; /* first bytes of the images */
enum { NEVER = -1 };
enum behaviour { QUIET, CONFIRMS, FAULTS, BEHAVIOURS }; /* behaviour of the payload when it runs */
enum harm { FAILS, LIES, HARMS };

static struct dfu_config config = {.version = DFU_VERSION, .device = 0x0100, .product = 1, .vendor = 0x1209, .detach_ms = 255,
    .transfer = TRANSFER, .attributes = 7, .least = 1, .unit = 16, .sector = SECTOR};
static uint8_t part[2 * SLOT], block[DFU_BLOCK_SIZE(TRANSFER, 64)], out[TRANSFER];
static enum behaviour behaviour;
static int wrong, is_without, is_blind, is_armed;

/* Number of points so far, points of the two losses of power, number of operations so far, and number of the operation that fails or
 * reports a false success. */
static long points, cuts[2], operations, harm_at;
static enum harm harm;
static jmp_buf power;
static int lost; /* number of losses of power so far */

/* History of the board: 1 during an upgrade, the image that its last start ran first, the running image, 1 during a reset by the host,
 * is_in_reset at the last loss of power, the number of starts of the payload since it became active, 1 after the previous image returned,
 * and 1 if a mark was harmed. */
static int is_upgrading, first_ran, running, is_in_reset, was_in_reset, runs, is_back, is_mark_harmed;

static void expect(const char *what, int holds);

static int is_now(void) {
    return lost < 2 && points++ == cuts[lost];
}
static void power_goes(void) {
    was_in_reset = is_in_reset;
    lost++;
    longjmp(power, 1);
}
static void point(void) {
    if (is_now())
        power_goes();
}

/* Carries out an operation. If it fails or reports a false success, it writes nothing. If it is cut off, it writes nothing, the first or
 * the last part of its bytes, or all of them. */
static int operate(uint32_t kind, uint32_t at, const uint8_t *bytes, uint32_t length) {
    const int is_mark = kind == DFU_PROGRAM && at % SLOT > SECTOR && at % SLOT < 2 * SECTOR, is_harmed = operations++ == harm_at;
    if (kind == DFU_ERASE && at % SLOT == SECTOR)
        runs = is_back = 0; /* a new header */
    if (is_harmed) {
        is_mark_harmed = is_mark;
        return harm == FAILS;
    }
    point();
    for (uint32_t tear = 0; tear < 2; tear++) {
        if (!is_now())
            continue;
        for (uint32_t i = 0; i < length; i++)
            if ((i < length / 3) == (tear == 0))
                part[at + i] = kind == DFU_ERASE ? 0xff : bytes[i];
        power_goes();
    }
    for (uint32_t i = 0; i < length; i++)
        part[at + i] = kind == DFU_ERASE ? 0xff : bytes[i];
    point();
    return 0;
}
static int erase(void *own, uint32_t at, uint32_t length) {
    (void)own;
    return operate(DFU_ERASE, at, NULL, length);
}
static int program(void *own, uint32_t at, const uint8_t *bytes, uint32_t length) {
    (void)own;
    return operate(DFU_PROGRAM, at, bytes, length);
}
static const struct dfu_driver driver = {NULL, erase, program};
static struct dfu_device device = {.config = &config, .flash = part, .size = sizeof part, .block = block, .most = sizeof block,
    .driver = &driver};
static struct dfu_trial trial = {.flash = part, .size = sizeof part, .driver = &driver, .tries = {16, SECTOR, 2}};

static void fill(uint8_t *image, int number) {
    for (int i = 0; i < LENGTH; i++)
        image[i] = (uint8_t)(number + 7 * i);
}
static int number_of(const struct dfu_place *place) {
    uint8_t image[LENGTH];
    fill(image, part[place->at]);
    return place->length == LENGTH && memcmp(part + place->at, image, LENGTH) == 0 ? part[place->at] : -1;
}

/* Runs an image: counts the starts of the payload, which confirms itself if `behaviour` is CONFIRMS. */
static void run(const struct dfu_place *place) {
    struct dfu_standing standing;
    running = number_of(place);
    expect("one of the images starts", running == BASE || running == OTHER || running == PAYLOAD);
    if (running == PAYLOAD && is_armed && behaviour != CONFIRMS) {
        runs++;
        expect("the payload starts at most so many times", runs <= (int)trial.tries.tries);
        expect("the payload does not start again once its trial ended", !is_back);
    }
    is_back |= running == BASE && dfu_trial_look(&trial, &standing) == 0 && standing.on_trial == 0;
    if (running == PAYLOAD && behaviour == CONFIRMS)
        dfu_trial_accept(&trial, place->at);
}
/* Starts an image, as after a reset of the processor. After a fault it starts again. */
static void start(void) {
    struct dfu_place place = {0, 0};
    is_upgrading = 0, first_ran = 0;
    do {
        memset(&device.record, 0xa5, sizeof device.record);
        expect("some image starts", dfu_trial_boot(&trial, &place) == 0);
        expect("the device gets power", dfu_device_power_on(&device) == 0);
        point();
        run(&place);
        if (first_ran == 0)
            first_ran = running;
    } while (running == PAYLOAD && behaviour == FAULTS);
}
/* Resets the processor if the state requires the other program. */
static void go_on(void) {
    const int is_upgrade = dfu_device_state(&device) > DFU_STATE_APP_DETACH;
    if (is_upgrade == is_upgrading)
        return;
    if (!is_upgrade) {
        start();
        return;
    }
    is_upgrading = 1;
    expect("the upgrade begins", dfu_device_begin(&device) == 0);
}
static int32_t serve(const uint8_t setup[8], const uint8_t *body) {
    const int is_passed_by = is_without && setup[1] == DFU_UPLOAD;
    if (!is_passed_by && dfu_trial_transfer(&trial, &device, setup) != 0)
        return DFU_STALL;
    return dfu_device_serve(&device, setup, body, out, sizeof out);
}

/* Returns 1 if the next start runs the payload: it is active, and on trial with a start left. */
static int is_next(void) {
    struct dfu_standing s;
    return dfu_trial_look(&trial, &s) == 0 && number_of(&s.active) == PAYLOAD && s.on_trial == 1 && s.left > 0;
}
/* Returns the number of marked starts in the second slot, which receives every new image beside a confirmed one. */
static uint32_t spent(void) {
    const uint32_t size = config.unit > 16 ? config.unit : 16;
    uint32_t count = 0;
    for (uint32_t i = 1; i <= trial.tries.tries; i++) {
        int is_set = 0;
        for (uint32_t j = 0; j < size; j++)
            is_set |= part[SLOT + SECTOR + (i + 1) * size + j] != 0xff;
        count += (uint32_t)is_set;
    }
    return count;
}
