/* The device of examples/alternates on the bus of the stand-in for libusb (tests/lib/usb), instead of its DfuSe device. Its settings, with
 * defaults in parentheses:
 *
 * ALTERNATES_RADIO   a file with the first image of the setting `radio` (no bytes)
 * ALTERNATES_CUT     the number of the operation of the part that loses power, from 1 (0: none)
 * ALTERNATES_TEAR    how that operation is cut off, as in part.h (1)
 * ALTERNATES_FAIL    the number of the operation that fails (0: none)
 *
 * The file USB_STATE holds the bytes of the part and the device's memory. After a loss of power, and after a reset that ends an upgrade,
 * the firmware runs: it answers in run-time mode by dfu_runtime.h, and DETACH and a reset lead to the bootloader. */
#include "../usb/bus.h"
#include "../usb/model.h"
#include "../usb/settings.h"

#include "dfu_runtime.h"
#include "part.h"
#include "raw.h"

#include <stdio.h>
#include <stdlib.h>
#include <string.h>

/* The memory of the device is part of the saved state too. */
#include "alternates.c"

#define TIMER_SLOWER 10

static struct dfu_runtime app;
static bool runs_app;
static uint32_t away_ms;

static unsigned number_of(const char *name, unsigned otherwise) {
    const char *text = getenv(name);
    return text == NULL ? otherwise : (unsigned)strtoul(text, NULL, 10);
}

/* Starts the bootloader. It starts the firmware unless `is_wanted` requests an upgrade. */
static void start(bool is_wanted) {
    app = (struct dfu_runtime){.detach_ms = shared_config.detach_ms, .attributes = shared_config.attributes};
    runs_app = !is_wanted;
    if (alternates_power_on() != 0)
        fail_loudly("the firmware has no image");
    alternates_configured(1);
}

static void power(void) {
    away_ms = 50;
    start(false);
}

static int handle(const uint8_t setup[8], const uint8_t *body, size_t length, uint8_t *out, size_t room) {
    static uint8_t data[BLOCK];
    int32_t n;
    if (runs_app)
        n = dfu_runtime_handle(&app, setup, data);
    else if (setjmp(off) != 0) {
        cut = 0;
        power();
        return STALLED;
    } else {
        memcpy(data, body, length < sizeof data ? length : sizeof data);
        n = alternates_request(setup, data, sizeof data);
        alternates_answered();
    }
    if (n < 0)
        return STALLED;
    if ((size_t)n > room)
        fail_loudly("the device answers %d bytes where %zu were asked for", (int)n, room);
    memcpy(out, data, (size_t)n);
    return n;
}

/* The timer of appDETACH runs at a tenth of real time, because on a busy machine over a second may pass between a host's DETACH and its
 * reset. */
static void elapse(uint32_t ms) {
    static uint32_t rest;
    away_ms -= away_ms < ms ? away_ms : ms;
    rest += ms;
    if (runs_app && dfu_runtime_elapse(&app, rest / TIMER_SLOWER))
        start(true);
    rest %= TIMER_SLOWER;
}

static void usb_reset(void) {
    if (runs_app && dfu_runtime_usb_reset(&app))
        start(true);
    else if (!runs_app && alternates_reset())
        start(false);
}

static void set_interface(void) {
    uint8_t setup[8] = {0x01, 11, (uint8_t)seen->setting}, data[BLOCK] = {0};
    if (!runs_app && alternates_request(setup, data, sizeof data) != 0)
        fail_loudly("the setting %d is stalled", seen->setting);
    setup[0] = 0x81;
    setup[1] = 10;
    setup[2] = 0;
    setup[6] = 1;
    if (!runs_app && (alternates_request(setup, data, sizeof data) != 1 || data[0] != seen->setting))
        fail_loudly("another setting is chosen than %d", seen->setting);
}

/* Checks that the descriptors of the stand-in equal those of the example. */
static void compare(void) {
    uint8_t said[CONFIGURATION];
    const char *names = settings.maps;
    alternates_describe(said);
    const uint8_t *function = said + CONFIGURATION - 9;
    if (said[2] != CONFIGURATION || settings.alternates != SETTINGS || function[2] != settings.attributes ||
        (function[5] | function[6] << 8) != settings.transfer || (function[3] | function[4] << 8) != settings.detach_ms ||
        (function[7] | function[8] << 8) != settings.version)
        fail_loudly("the settings of the stand-in are not those of the example");
    for (unsigned i = 0; i < SETTINGS; i++) {
        const size_t length = strcspn(names, "|");
        if (said[9 + 9 * i + 3] != i || strlen(setting_table[i].name) != length || memcmp(setting_table[i].name, names, length) != 0)
            fail_loudly("the setting %u has another name: %s", i, setting_table[i].name);
        names += length + (names[length] == '|');
    }
}

static void make(void) {
    FILE *file = settings.state != NULL ? fopen(settings.state, "rb") : NULL;
    compare();
    memset(part, 0xff, sizeof part);
    if (file != NULL) {
        if (fread(part, 1, sizeof part, file) != sizeof part)
            fail_loudly("%s is no part", settings.state);
        fclose(file);
    } else {
        const struct part old = read_image(settings.image), radio = read_image(getenv("ALTERNATES_RADIO"));
        if (dfu_device_format(setting_table[0].device, old.at, old.size) != 0 ||
            dfu_device_format(setting_table[1].device, radio.at, radio.size) != 0)
            fail_loudly("no format");
    }
    start(!settings.starts_in_app);
    operations = 0;
    cut = number_of("ALTERNATES_CUT", 0);
    tear = number_of("ALTERNATES_TEAR", 1);
    failing = number_of("ALTERNATES_FAIL", 0);
}

static bool is_there(void) {
    return away_ms == 0;
}

static bool is_app(void) {
    return runs_app;
}

static int state(void) {
    return runs_app ? (int)app.state : alternates_state();
}

static int code(void) {
    return runs_app ? 0 : alternates_code();
}

static struct part image(void) {
    struct dfu_place place;
    if (dfu_device_image(setting_table[0].device, &place) != 0)
        fail_loudly("the firmware has no image");
    return (struct part){part + setting_table[0].place->at + place.at, place.length};
}

static struct part keeps(unsigned number) {
    struct dfu_device *one = setting_table[0].device, *other = setting_table[1].device;
    struct raw *raw = setting_table[2].raw;
    const struct part parts[] = {{part, sizeof part},
                                 {&one->record, sizeof one->record},
                                 {one->block, one->most},
                                 {&other->record, sizeof other->record},
                                 {other->block, other->most},
                                 {&raw->at, sizeof *raw - offsetof(struct raw, at)},
                                 {raw->block, BLOCK},
                                 {&chosen, 1},
                                 {&is_configured, 1},
                                 {&runs_app, sizeof runs_app},
                                 {&app, sizeof app},
                                 {NULL, 0}};
    return parts[number];
}

const struct model alternates_model = {
    .make = make,
    .power = power,
    .handle = handle,
    .elapse = elapse,
    .usb_reset = usb_reset,
    .set_interface = set_interface,
    .is_there = is_there,
    .is_app = is_app,
    .state = state,
    .code = code,
    .image = image,
    .keeps = keeps,
};
