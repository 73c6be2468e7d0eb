/* Checks the order of the laws over lists, by wrappers around the calls. The first call is a power-on or a format. An operation that was
 * requested is handed out, carried out exactly as handed out, and reported, before any other call that changes the device. Record, block
 * and flash are as the last call left them. Marks are written between two calls, and after the end of a trial the device calls power_on or
 * begin before anything else. */
#include "dfu_device.h"
#include "dfu_trial.h"
#include "calls.h"
#include "listings.h"
#include <stdio.h>
#include <string.h>

unsigned long steps, marks, ends, violations;
static uint8_t *slots_at, shadow[1 << 18];
static size_t slots_size;
static struct dfu_record kept;
static uint8_t memory[4096];
static size_t memory_size;
static int has_power, is_due, is_format, is_handed, is_carried, is_asked, has_ended;
static struct dfu_ask handed, asked;

static void holds(int truth, const char *what)
{
    if (!truth && violations++ < 10)
        printf("out of order: %s\n", what);
}

void slots_are(uint8_t *flash, size_t size)
{
    slots_at = flash;
    slots_size = size;
    memcpy(shadow, flash, size);
}

void power_goes(void)
{
    has_power = is_due = is_format = is_handed = is_asked = has_ended = 0;
    steps++;
}

static void flash_is_kept(void)
{
    holds(memcmp(slots_at, shadow, slots_size) == 0, "the flash changed by no operation");
}

/* Checks that a call of the device may be made now, and that record, block and flash are as the last call left them. */
static void comes(const struct dfu_record *record, const uint8_t *block, size_t most)
{
    steps++;
    flash_is_kept();
    holds(has_power, "a call before power");
    holds(!has_ended, "a call after the end of a trial, before power");
    holds(!is_asked, "a call while a mark is due");
    holds(memcmp(record, &kept, sizeof kept) == 0, "the record changed by no call");
    if (block != NULL && memory_size == most)
        holds(memcmp(block, memory, most) == 0, "the block changed by no call");
}

static int32_t leaves(const struct dfu_record *record, const uint8_t *block, size_t most, int32_t n)
{
    kept = *record;
    if (block != NULL && most <= sizeof memory) {
        memcpy(memory, block, most);
        memory_size = most;
    }
    flash_is_kept();
    is_due = n == DFU_WRITE_PENDING;
    is_handed = is_carried = 0;
    return n;
}

static int32_t powers(const struct dfu_record *record, int32_t n)
{
    steps++;
    flash_is_kept();
    holds(!is_asked, "power while a mark is due");
    is_due = is_format = is_handed = 0;
    has_power = n == 0;
    has_ended = 0;
    memory_size = 0;
    kept = *record;
    return n;
}

int32_t WRAP(dfu_core_power_on)(const struct dfu_config *c, struct dfu_record *r, FLASH)
{
    return powers(r, REAL(dfu_core_power_on)(c, r, flash, size));
}

int32_t WRAP(dfu_core_begin)(const struct dfu_config *c, struct dfu_record *r, FLASH)
{
    holds(!is_due, "a begin while an operation is due");
    return powers(r, REAL(dfu_core_begin)(c, r, flash, size));
}

int32_t WRAP(dfu_core_handle)(DEVICE, const uint8_t setup[8], const uint8_t *body, size_t length, uint8_t *out, size_t room)
{
    comes(r, block, most);
    holds(!is_due, "a request while an operation is due");
    return leaves(r, block, most, REAL(dfu_core_handle)(c, r, block, most, flash, size, setup, body, length, out, room));
}

int32_t WRAP(dfu_core_elapse)(DEVICE, uint32_t ms)
{
    comes(r, block, most);
    holds(!is_due, "time while an operation is due");
    return leaves(r, block, most, REAL(dfu_core_elapse)(c, r, block, most, flash, size, ms));
}

int32_t WRAP(dfu_core_usb_reset)(DEVICE)
{
    comes(r, block, most);
    holds(!is_due, "a reset while an operation is due");
    return leaves(r, block, most, REAL(dfu_core_usb_reset)(c, r, block, most, flash, size));
}

int32_t WRAP(dfu_core_next)(const struct dfu_config *c, const struct dfu_record *r, const uint8_t *block, size_t most, FLASH,
                            struct dfu_ask *ask)
{
    comes(r, block, most);
    holds(is_due, "an operation that nothing asked for");
    const int32_t n = REAL(dfu_core_next)(c, r, block, most, flash, size, ask);
    is_handed = n == 0;
    is_carried = 0;
    handed = *ask;
    return n;
}

int32_t WRAP(dfu_core_took)(DEVICE, uint32_t failed, uint8_t *out, size_t room)
{
    comes(r, block, most);
    holds(is_due && is_handed && is_carried, "a report of an operation that was not carried out");
    return leaves(r, block, most, REAL(dfu_core_took)(c, r, block, most, flash, size, failed, out, room));
}

int32_t WRAP(dfu_core_format_start)(const struct dfu_config *c, struct dfu_record *r, FLASH, const uint8_t *image, size_t length)
{
    flash_is_kept();
    const int32_t n = REAL(dfu_core_format_start)(c, r, flash, size, image, length);
    has_power = 0;
    is_format = n == DFU_WRITE_PENDING;
    kept = *r;
    return n;
}

int32_t WRAP(dfu_core_format_next)(const struct dfu_config *c, const struct dfu_record *r, FLASH, const uint8_t *image, size_t length,
                                   struct dfu_ask *ask)
{
    holds(is_format, "an operation of a format that nothing asked for");
    const int32_t n = REAL(dfu_core_format_next)(c, r, flash, size, image, length, ask);
    is_handed = n == 0;
    is_carried = 0;
    handed = *ask;
    return n;
}

int32_t WRAP(dfu_core_format_took)(const struct dfu_config *c, struct dfu_record *r, FLASH, const uint8_t *image, size_t length,
                                   uint32_t failed)
{
    holds(is_format && is_handed && is_carried, "a report of a format's operation that was not carried out");
    const int32_t n = REAL(dfu_core_format_took)(c, r, flash, size, image, length, failed);
    is_format = n == DFU_WRITE_PENDING;
    is_handed = 0;
    kept = *r;
    return n;
}

/* Notes the operation that a call of a trial requests: a mark, or the erase that ends the trial. */
static int32_t asks(int32_t n, const struct dfu_ask *ask)
{
    flash_is_kept();
    holds(!is_due, "a call of a trial while an operation is due");
    is_asked = n == DFU_WRITE_PENDING;
    if (is_asked)
        asked = *ask;
    return n;
}

int32_t WRAP(dfu_core_trial_start)(const struct dfu_tries *t, FLASH, struct dfu_ask *ask, struct dfu_starting *starting)
{
    return asks(REAL(dfu_core_trial_start)(t, flash, size, ask, starting), ask);
}

int32_t WRAP(dfu_core_trial_start_from)(const struct dfu_tries *t, FLASH, const struct dfu_standing *standing, struct dfu_ask *ask,
                                        struct dfu_starting *starting)
{
    return asks(REAL(dfu_core_trial_start_from)(t, flash, size, standing, ask, starting), ask);
}

int32_t WRAP(dfu_core_trial_confirm)(const struct dfu_tries *t, FLASH, uint32_t at, struct dfu_ask *ask)
{
    return asks(REAL(dfu_core_trial_confirm)(t, flash, size, at, ask), ask);
}

int32_t WRAP(dfu_core_trial_end)(const struct dfu_tries *t, FLASH, struct dfu_ask *ask)
{
    return asks(REAL(dfu_core_trial_end)(t, flash, size, ask), ask);
}

int32_t WRAP(dfu_core_trial_upload)(const struct dfu_tries *t, FLASH, struct dfu_ask *ask)
{
    return asks(REAL(dfu_core_trial_upload)(t, flash, size, ask), ask);
}

/* Checks that the driver's operation on the slots is the one that was handed out, or that a trial requested. */
static void is_meant(uint32_t kind, uint32_t at, const uint8_t *bytes, uint32_t length)
{
    const struct dfu_ask *ask = is_asked ? &asked : &handed;
    holds(is_asked || ((is_due || is_format) && is_handed && !is_carried), "an operation that was not handed out");
    holds(ask->kind == kind && ask->at == at && ask->length == length && (bytes == NULL || memcmp(ask->bytes, bytes, length) == 0),
          "another operation than the one that was handed out");
    if (is_asked) {
        if (kind == DFU_PROGRAM) {
            marks++;
        } else {
            ends++;
            has_ended = has_power;
        }
        is_asked = 0;
    }
    is_carried = 1;
    steps++;
}

void part_erases(uint8_t *own, uint32_t at, uint32_t length)
{
    const uint32_t done = is_cut() ? length / 2 : length;
    if (own == slots_at)
        is_meant(DFU_ERASE, at, NULL, length);
    memset(own + at, 0xff, done);
    if (own == slots_at)
        memcpy(shadow + at, own + at, length);
    if (done < length)
        power_fails();
}

void part_programs(uint8_t *own, uint32_t at, const uint8_t *bytes, uint32_t length)
{
    if (own == slots_at)
        is_meant(DFU_PROGRAM, at, bytes, length);
    const uint32_t done = is_cut() ? length / 2 : length;
    for (uint32_t i = 0; i < done; i++)
        own[at + i] &= bytes[i];
    if (own == slots_at)
        memcpy(shadow + at, own + at, length);
    if (done < length)
        power_fails();
}
