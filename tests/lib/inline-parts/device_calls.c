/* Stand-ins for the calls of dfu_core.h. Each checks that it is called at the right moment, with the program's arguments; then it returns
 * one of the results of says.c. */
#include <string.h>

#include "monitor.h"

/* Checks configuration and record: those of the program's device, or of the one that the inline call makes. */
static void of(const struct dfu_config *config, const struct dfu_record *record)
{
    if (given.record == NULL)
        given.record = record;
    holds(config == given.config && record == given.record, "another configuration or record");
}

static void with_flash(const uint8_t *flash, size_t size)
{
    holds(flash == given.flash && size == given.size, "another flash");
}

static void with_memory(const uint8_t *block, size_t most, const uint8_t *flash, size_t size)
{
    holds(block == given.block && most == given.most, "another block");
    with_flash(flash, size);
}

static void with_image(const uint8_t *image, size_t length)
{
    holds(image == given.image && length == given.length, "another image");
}

static void with_setup(const uint8_t *setup)
{
    holds(setup == given.setup, "another setup");
}

/* Checks the output buffer: it is the caller's, except for the work before a request, which needs a separate buffer because the caller's
 * may hold the body. */
static void with_out(uint8_t *out, size_t room)
{
    if (stage_now() != ELAPSE)
        holds(out == given.out && room == given.room, "another buffer");
    else
        holds(room >= 6 && out != given.out && out != given.body && out != given.block && out != given.flash, "no buffer of its own");
    memset(out, 0xee, room);
}

int32_t dfu_core_power_on(const struct dfu_config *config, struct dfu_record *record, const uint8_t *flash, size_t size)
{
    comes(POWER_ON);
    of(config, record);
    with_flash(flash, size);
    return say(POWER_ON);
}

int32_t dfu_core_begin(const struct dfu_config *config, struct dfu_record *record, const uint8_t *flash, size_t size)
{
    comes(BEGIN);
    of(config, record);
    with_flash(flash, size);
    return say(BEGIN);
}

int32_t dfu_core_handle(const struct dfu_config *config, struct dfu_record *record, uint8_t *block, size_t most, const uint8_t *flash,
                        size_t size, const uint8_t setup[8], const uint8_t *body, size_t length, uint8_t *out, size_t room)
{
    comes(HANDLE);
    of(config, record);
    with_memory(block, most, flash, size);
    with_setup(setup);
    with_out(out, room);
    holds(body == given.body && length == given.length, "another body");
    return say(HANDLE);
}

int32_t dfu_core_elapse(const struct dfu_config *config, struct dfu_record *record, uint8_t *block, size_t most, const uint8_t *flash,
                        size_t size, uint32_t ms)
{
    comes(ELAPSE);
    of(config, record);
    with_memory(block, most, flash, size);
    holds(ms == given.ms, "another time than the one that is due");
    return say(ELAPSE);
}

int32_t dfu_core_usb_reset(const struct dfu_config *config, struct dfu_record *record, uint8_t *block, size_t most, const uint8_t *flash,
                           size_t size)
{
    comes(USB_RESET);
    of(config, record);
    with_memory(block, most, flash, size);
    return say(USB_RESET);
}

int32_t dfu_core_next(const struct dfu_config *config, const struct dfu_record *record, const uint8_t *block, size_t most,
                      const uint8_t *flash, size_t size, struct dfu_ask *ask)
{
    comes(NEXT);
    of(config, record);
    with_memory(block, most, flash, size);
    const int32_t n = say(NEXT);
    if (n == 0)
        hand_out(ask);
    return n;
}

int32_t dfu_core_took(const struct dfu_config *config, struct dfu_record *record, uint8_t *block, size_t most, const uint8_t *flash,
                      size_t size, uint32_t failed, uint8_t *out, size_t room)
{
    comes(TOOK);
    hears(failed);
    of(config, record);
    with_memory(block, most, flash, size);
    with_out(out, room);
    return say(TOOK);
}

int32_t dfu_core_would_stall(const struct dfu_config *config, const struct dfu_record *record, size_t size, const uint8_t setup[8])
{
    comes(WOULD_STALL);
    of(config, record);
    holds(size == given.size, "another size");
    with_setup(setup);
    return say(WOULD_STALL);
}

int32_t dfu_core_closes(const struct dfu_config *config, const struct dfu_record *record, const uint8_t setup[8])
{
    comes(CLOSES);
    of(config, record);
    with_setup(setup);
    return say(CLOSES);
}

int32_t dfu_core_too_long(const struct dfu_config *config, struct dfu_record *record, const uint8_t setup[8])
{
    comes(TOO_LONG);
    of(config, record);
    with_setup(setup);
    return say(TOO_LONG);
}

int32_t dfu_core_refuse_close(const struct dfu_config *config, struct dfu_record *record, const uint8_t setup[8], uint32_t status)
{
    comes(REFUSE_CLOSE);
    of(config, record);
    with_setup(setup);
    holds(status == given.status, "another status");
    return say(REFUSE_CLOSE);
}

int32_t dfu_core_refuse(const struct dfu_config *config, struct dfu_record *record, uint32_t status)
{
    comes(REFUSE);
    of(config, record);
    holds(status == given.status, "another status");
    return say(REFUSE);
}

int32_t dfu_core_candidate(const struct dfu_config *config, const struct dfu_record *record, const uint8_t *flash, size_t size,
                           struct dfu_place *place)
{
    comes(CANDIDATE);
    of(config, record);
    with_flash(flash, size);
    *place = given.run;
    return say(CANDIDATE);
}

int32_t dfu_core_due(const struct dfu_config *config, const struct dfu_record *record)
{
    comes(DUE);
    of(config, record);
    return answers(DUE, due_now);
}

int32_t dfu_core_functional(const struct dfu_config *config, uint8_t out[9])
{
    comes(FUNCTIONAL);
    holds(config == given.config, "another configuration");
    holds(out == given.out, "another buffer");
    return say(FUNCTIONAL);
}

int32_t dfu_core_state(const struct dfu_record *record)
{
    comes(STATE);
    of(given.config, record);
    return answers(STATE, state_now);
}

int32_t dfu_core_code(const struct dfu_record *record)
{
    comes(CODE);
    of(given.config, record);
    return say(CODE);
}

int32_t dfu_core_image(const struct dfu_config *config, const uint8_t *flash, size_t size, struct dfu_place *place)
{
    comes(IMAGE);
    holds(config == given.config, "another configuration");
    with_flash(flash, size);
    *place = given.run;
    return say(IMAGE);
}

int32_t dfu_core_is_blank(const struct dfu_config *config, const uint8_t *flash, size_t size)
{
    comes(IS_BLANK);
    holds(config == given.config, "another configuration");
    with_flash(flash, size);
    return say(IS_BLANK);
}

int32_t dfu_core_format_start(const struct dfu_config *config, struct dfu_record *record, const uint8_t *flash, size_t size,
                              const uint8_t *image, size_t length)
{
    comes(FORMAT_START);
    of(config, record);
    with_flash(flash, size);
    with_image(image, length);
    return say(FORMAT_START);
}

int32_t dfu_core_format_next(const struct dfu_config *config, const struct dfu_record *record, const uint8_t *flash, size_t size,
                             const uint8_t *image, size_t length, struct dfu_ask *ask)
{
    comes(FORMAT_NEXT);
    of(config, record);
    with_flash(flash, size);
    with_image(image, length);
    const int32_t n = say(FORMAT_NEXT);
    if (n == 0)
        hand_out(ask);
    return n;
}

int32_t dfu_core_format_took(const struct dfu_config *config, struct dfu_record *record, const uint8_t *flash, size_t size,
                             const uint8_t *image, size_t length, uint32_t failed)
{
    comes(FORMAT_TOOK);
    hears(failed);
    of(config, record);
    with_flash(flash, size);
    with_image(image, length);
    return say(FORMAT_TOOK);
}
