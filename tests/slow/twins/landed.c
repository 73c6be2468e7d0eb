/* Implements landed.h: converts configuration, record and setup to the form of version 0.2.0, and the record back. */
#include "landed/landed_asking.h"
#include "landed.h"

#include <string.h>

enum { OLD_VERSION = 200, WRONG_SECTOR = -13 };

/* In 0.2.0 the sector was not part of the configuration: a sector that 0.2.0 does not allow becomes a wrong version. */
static struct landed_config old_config(const struct dfu_config *c) {
    int is_one = c->version == DFU_VERSION && c->sector % 256 == 0 && c->sector <= 131072;
    return (struct landed_config){is_one ? OLD_VERSION : OLD_VERSION + 1, c->device, c->product, c->vendor, c->detach_ms, c->transfer,
                                  c->attributes, c->busy_ms, c->manifest_ms, c->least, c->unit};
}

static struct landed_asking old_record(const struct dfu_config *c, const struct dfu_record *r) {
    struct landed_asking old = {.device = {.version = r->version == DFU_VERSION ? OLD_VERSION : OLD_VERSION + 1, .mode = r->mode,
        .first = r->first, .second = r->second, .put_end = r->put_end, .slot = r->slot, .number = r->number, .length = r->length,
        .held_length = r->held_length}, .sector = c->sector, .work = r->work, .spare = r->spare, .sum = r->sum, .done = r->done,
        .asked = r->asked, .generation = r->generation, .close = r->close};
    memcpy(old.device.header, r->header, sizeof r->header);
    return old;
}

static void bring_back(struct dfu_record *r, const struct landed_asking *old) {
    const struct landed_device *d = &old->device;
    if (d->version == OLD_VERSION)
        r->version = DFU_VERSION;
    r->mode = d->mode, r->first = d->first, r->second = d->second, r->put_end = d->put_end, r->slot = d->slot, r->number = d->number;
    r->length = d->length, r->held_length = d->held_length;
    memcpy(r->header, d->header, sizeof r->header);
    r->work = old->work, r->spare = old->spare, r->sum = old->sum, r->done = old->done, r->asked = old->asked;
    r->generation = old->generation, r->close = old->close;
}

/* In 0.2.0 wIndex was 0 for the device's interface, whatever its number. */
static void old_setup(const struct dfu_config *c, const uint8_t setup[8], uint8_t old[8]) {
    memcpy(old, setup, 8);
    int is_own = setup[4] == c->interface_number && setup[5] == 0;
    if (is_own)
        old[4] = 0;
    else if (setup[4] == 0 && setup[5] == 0)
        old[5] = 1;
}

/* Returns `most` - `without`, but at least 0 and at most `limit`. Version 0.2.0 kept the bytes held back in the record, instead of after
 * the block. */
static size_t left(size_t most, size_t without, size_t limit) {
    size_t rest = most < without ? 0 : most - without;
    return rest < limit ? rest : limit;
}

#define OLD(record) struct landed_config c = old_config(config); struct landed_asking a = old_record(config, record)
#define BACK(number) do { int32_t n = (number); bring_back(record, &a); return n; } while (0)
#define OLD_WITH(record) OLD(record); const size_t own = left(most, config->unit, config->transfer); \
    const size_t held = left(most, config->transfer, 256); memcpy(a.device.held, block + config->transfer, held)
#define BACK_WITH(number) do { int32_t n = (number); bring_back(record, &a); memcpy(block + config->transfer, a.device.held, held); \
    return n; } while (0)

static int32_t number(int32_t n) {
    return n == WRONG_SECTOR ? DFU_NO_CONFIG : n;
}

int32_t landed_power_on(const struct dfu_config *config, struct dfu_record *record, const uint8_t *flash, size_t size) {
    OLD(record);
    BACK(number(landed_asking_power_on(&c, &a, config->sector, flash, size)));
}

/* Version 0.2.0 has no such call: a power-on, a DETACH and a bus reset replace it. */
int32_t landed_begin(const struct dfu_config *config, struct dfu_record *record, uint8_t *block, size_t most, const uint8_t *flash,
                     size_t size) {
    static const uint8_t detach[8] = {0x21, 0, 0xff, 0xff};
    static uint8_t out[4096];
    OLD(record);
    const size_t own = left(most, config->unit, config->transfer);
    int32_t result = number(landed_asking_power_on(&c, &a, config->sector, flash, size));
    if (result == 0 && (landed_asking_handle(&c, &a, block, own, flash, size, detach, block, 0, out, sizeof out) != 0
        || landed_asking_usb_reset(&c, &a, block, own, flash, size) != 0))
        return -100;
    BACK(result);
}

int32_t landed_handle(const struct dfu_config *config, struct dfu_record *record, uint8_t *block, size_t most, const uint8_t *flash,
                      size_t size, const uint8_t setup[8], const uint8_t *body, size_t length, uint8_t *out, size_t room) {
    uint8_t old[8];
    OLD_WITH(record);
    old_setup(config, setup, old);
    BACK_WITH(landed_asking_handle(&c, &a, block, own, flash, size, old, body, length, out, room));
}

int32_t landed_elapse(const struct dfu_config *config, struct dfu_record *record, uint8_t *block, size_t most, const uint8_t *flash,
                      size_t size, uint32_t ms) {
    OLD_WITH(record);
    BACK_WITH(landed_asking_elapse(&c, &a, block, own, flash, size, ms));
}

int32_t landed_usb_reset(const struct dfu_config *config, struct dfu_record *record, uint8_t *block, size_t most, const uint8_t *flash,
                         size_t size) {
    OLD_WITH(record);
    BACK_WITH(landed_asking_usb_reset(&c, &a, block, own, flash, size));
}

int32_t landed_next(const struct dfu_config *config, const struct dfu_record *record, const uint8_t *block, size_t most,
                    const uint8_t *flash, size_t size, struct dfu_ask *ask) {
    OLD_WITH(record);
    struct landed_ask old;
    memcpy(&old, ask, sizeof old);
    int32_t n = landed_asking_next(&c, &a, block, own, flash, size, &old);
    memcpy(ask, &old, sizeof old);
    return n;
}

int32_t landed_took(const struct dfu_config *config, struct dfu_record *record, uint8_t *block, size_t most, const uint8_t *flash,
                    size_t size, uint32_t failed, uint8_t *out, size_t room) {
    OLD_WITH(record);
    BACK_WITH(landed_asking_took(&c, &a, block, own, flash, size, failed, out, room));
}

int32_t landed_would_stall(const struct dfu_config *config, const struct dfu_record *record, size_t size, const uint8_t setup[8]) {
    uint8_t old[8];
    OLD(record);
    old_setup(config, setup, old);
    return landed_asking_would_stall(&c, &a, size, old);
}

int32_t landed_too_long(const struct dfu_config *config, struct dfu_record *record, const uint8_t setup[8]) {
    uint8_t old[8];
    OLD(record);
    old_setup(config, setup, old);
    BACK(landed_asking_too_long(&c, &a, old));
}

/* 0.2.0 returned a number of 64 bits, which for a garbled record may not fit in 32. */
int32_t landed_due(const struct dfu_config *config, const struct dfu_record *record) {
    OLD(record);
    int64_t due = landed_device_due(&c, &a.device);
    return due > INT32_MAX ? INT32_MAX : (int32_t)due;
}

int32_t landed_functional(const struct dfu_config *config, uint8_t out[9]) {
    struct landed_config c = old_config(config);
    return landed_device_functional(&c, out);
}

int32_t landed_state(const struct dfu_record *record) {
    static const struct dfu_config none;
    struct landed_asking a = old_record(&none, record);
    return landed_device_state(&a.device);
}

int32_t landed_code(const struct dfu_record *record) {
    static const struct dfu_config none;
    struct landed_asking a = old_record(&none, record);
    return landed_device_code(&a.device);
}

int32_t landed_image(const struct dfu_config *config, const uint8_t *flash, size_t size, struct dfu_place *place) {
    struct landed_config c = old_config(config);
    struct landed_place old = {place->at, place->length};
    int32_t n = landed_asking_image(&c, config->sector, flash, size, &old);
    place->at = old.at, place->length = old.length;
    return number(n);
}

int32_t landed_format_start(const struct dfu_config *config, struct dfu_record *record, const uint8_t *flash, size_t size,
                            const uint8_t *image, size_t length) {
    OLD(record);
    BACK(number(landed_asking_format_start(&c, &a, config->sector, flash, size, image, length)));
}

int32_t landed_format_next(const struct dfu_config *config, const struct dfu_record *record, const uint8_t *flash, size_t size,
                           const uint8_t *image, size_t length, struct dfu_ask *ask) {
    OLD(record);
    struct landed_ask old;
    memcpy(&old, ask, sizeof old);
    int32_t n = landed_asking_format_next(&c, &a, flash, size, image, length, &old);
    memcpy(ask, &old, sizeof old);
    return n;
}

int32_t landed_format_took(const struct dfu_config *config, struct dfu_record *record, const uint8_t *flash, size_t size,
                           const uint8_t *image, size_t length, uint32_t failed) {
    OLD(record);
    BACK(landed_asking_format_took(&c, &a, flash, size, image, length, failed));
}

int32_t landed_memory_power_on(const struct dfu_config *config, struct dfu_record *record, uint8_t *medium, size_t size) {
    OLD(record);
    BACK(landed_device_power_on(&c, &a.device, medium, size));
}

int32_t landed_memory_handle(const struct dfu_config *config, struct dfu_record *record, uint8_t *block, size_t most, uint8_t *medium,
                             size_t size, const uint8_t setup[8], const uint8_t *body, size_t length, uint8_t *out, size_t room) {
    uint8_t old[8];
    OLD_WITH(record);
    old_setup(config, setup, old);
    BACK_WITH(landed_device_handle(&c, &a.device, block, own, medium, size, old, body, length, out, room));
}

int32_t landed_memory_elapse(const struct dfu_config *config, struct dfu_record *record, uint8_t *block, size_t most, uint8_t *medium,
                             size_t size, uint32_t ms) {
    OLD_WITH(record);
    BACK_WITH(landed_device_elapse(&c, &a.device, block, own, medium, size, ms));
}

int32_t landed_memory_usb_reset(const struct dfu_config *config, struct dfu_record *record, uint8_t *block, size_t most, uint8_t *medium,
                                size_t size) {
    OLD_WITH(record);
    BACK_WITH(landed_device_usb_reset(&c, &a.device, block, own, medium, size));
}
