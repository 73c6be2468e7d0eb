/* Stand-ins for the calls of dfu_trial_core.h, dfu_install_core.h and dfu_home_core.h. Each checks that it is called at the right moment,
 * with the program's arguments; then it returns one of the results of says.c. */
#include <string.h>

#include "monitor.h"

static void with_flash(const uint8_t *flash, size_t size)
{
    holds(flash == given.flash && size == given.size, "another flash");
}

static void with_tries(const struct dfu_tries *tries)
{
    holds(tries->unit == given.tries.unit && tries->sector == given.tries.sector && tries->tries == given.tries.tries,
          "another unit, sector or number of tries");
}

/* Checks that this is the operation that was handed out, with all its bytes. */
static void with_ask(const struct dfu_ask *ask)
{
    holds(ask->kind == handed.kind && ask->at == handed.at && ask->length == handed.length
              && memcmp(ask->bytes, handed.bytes, sizeof handed.bytes) == 0,
          "another operation than the one handed out");
}

/* Returns a result of the call, and hands out an operation with DFU_WRITE_PENDING. */
static int32_t say_or_ask(enum call call, struct dfu_ask *ask)
{
    const int32_t n = say(call);
    if (n == DFU_WRITE_PENDING)
        hand_out(ask);
    return n;
}

/* Each call returns another place for the active image. */
int32_t dfu_core_trial_look(const struct dfu_tries *tries, const uint8_t *flash, size_t size, struct dfu_standing *standing)
{
    comes(TRIAL_LOOK);
    with_tries(tries);
    with_flash(flash, size);
    const int32_t n = say(TRIAL_LOOK);
    if (n == 0) {
        memset(standing, 0x33, sizeof *standing);
        standing->active.at = ++given.at;
    }
    return n;
}

static int32_t starts(enum call call, struct dfu_ask *ask, struct dfu_starting *starting)
{
    const int32_t n = say_or_ask(call, ask);
    if (n == 0 || n == DFU_WRITE_PENDING) {
        starting->run = given.run;
        starting->otherwise = given.otherwise;
    }
    return n;
}

int32_t dfu_core_trial_start(const struct dfu_tries *tries, const uint8_t *flash, size_t size, struct dfu_ask *ask,
                             struct dfu_starting *starting)
{
    comes(TRIAL_START);
    with_tries(tries);
    with_flash(flash, size);
    return starts(TRIAL_START, ask, starting);
}

int32_t dfu_core_trial_start_from(const struct dfu_tries *tries, const uint8_t *flash, size_t size, const struct dfu_standing *standing,
                                  struct dfu_ask *ask, struct dfu_starting *starting)
{
    comes(TRIAL_START_FROM);
    with_tries(tries);
    with_flash(flash, size);
    holds(standing == given.standing, "another standing is handed on");
    return starts(TRIAL_START_FROM, ask, starting);
}

int32_t dfu_core_trial_runs(const uint8_t *flash, size_t size, const struct dfu_ask *ask, const struct dfu_starting *starting,
                            struct dfu_place *place)
{
    comes(TRIAL_RUNS);
    with_flash(flash, size);
    with_ask(ask);
    holds(memcmp(&starting->run, &given.run, sizeof given.run) == 0
              && memcmp(&starting->otherwise, &given.otherwise, sizeof given.otherwise) == 0,
          "another start than the one that was asked about");
    const int32_t n = say(TRIAL_RUNS);
    if (n == 0)
        *place = given.otherwise;
    return n;
}

int32_t dfu_core_trial_confirm(const struct dfu_tries *tries, const uint8_t *flash, size_t size, uint32_t at, struct dfu_ask *ask)
{
    comes(TRIAL_CONFIRM);
    with_tries(tries);
    with_flash(flash, size);
    holds(at == given.at, "another image is confirmed");
    return say_or_ask(TRIAL_CONFIRM, ask);
}

int32_t dfu_core_trial_end(const struct dfu_tries *tries, const uint8_t *flash, size_t size, struct dfu_ask *ask)
{
    comes(TRIAL_END);
    with_tries(tries);
    with_flash(flash, size);
    return say_or_ask(TRIAL_END, ask);
}

int32_t dfu_core_trial_upload(const struct dfu_tries *tries, const uint8_t *flash, size_t size, struct dfu_ask *ask)
{
    comes(TRIAL_UPLOAD);
    with_tries(tries);
    with_flash(flash, size);
    return say_or_ask(TRIAL_UPLOAD, ask);
}

/* Checks the arguments for the run area, and for the image to copy. */
static void with_area(const struct dfu_run_area *area, const uint8_t *image, size_t length, const uint8_t *run, size_t size)
{
    holds(area == given.area && image == given.image && length == given.length, "another run area or image");
    with_flash(run, size);
}

int32_t dfu_core_install_next(const struct dfu_run_area *area, const uint8_t *image, size_t length, const uint8_t *run, size_t size,
                              struct dfu_ask *ask)
{
    comes(INSTALL_NEXT);
    with_area(area, image, length, run, size);
    return say_or_ask(INSTALL_NEXT, ask);
}

int32_t dfu_core_install_took(struct dfu_run_area *area, const uint8_t *image, size_t length, const uint8_t *run, size_t size,
                              const struct dfu_ask *ask, uint32_t failed)
{
    comes(INSTALL_TOOK);
    hears(failed);
    with_area(area, image, length, run, size);
    with_ask(ask);
    return say(INSTALL_TOOK);
}

/* Checks the record of a copy: the first call of a path begins one, and each reported operation is counted. */
static void with_home(const struct dfu_home_record *record)
{
    if (given.home == NULL) {
        holds(record->last == DFU_NOWHERE, "a copy that begins has a last operation");
        given.home = record;
    }
    holds(record == given.home && record->count == given.home_count, "another record of a copy");
}

int32_t dfu_core_home_next(const struct dfu_config *config, const struct dfu_home_record *record, const uint8_t *flash, size_t size,
                           struct dfu_ask *ask)
{
    comes(HOME_NEXT);
    holds(config == given.config, "another configuration");
    with_home(record);
    with_flash(flash, size);
    return say_or_ask(HOME_NEXT, ask);
}

int32_t dfu_core_home_took(struct dfu_home_record *record, const uint8_t *flash, size_t size, const struct dfu_ask *ask, uint32_t failed)
{
    comes(HOME_TOOK);
    hears(failed);
    with_home(record);
    with_flash(flash, size);
    with_ask(ask);
    record->count = ++given.home_count;
    return say(HOME_TOOK);
}

int32_t dfu_core_home_may_download(const struct dfu_config *config, const uint8_t *flash, size_t size)
{
    comes(HOME_MAY_DOWNLOAD);
    holds(config == given.config, "another configuration");
    with_flash(flash, size);
    return say(HOME_MAY_DOWNLOAD);
}
