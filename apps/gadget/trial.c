/* SPDX-License-Identifier: MIT OR Apache-2.0 */
/* Each of the commands start, confirm and end makes one call of the library, which requests at most one write. The command waits for its
 * turn first, because `run` may be using the medium. */
#include "trial.h"
#include "driver.h"
#include "machine.h"
#include "messages.h"
#include "stop.h"

#include <inttypes.h>
#include <stdio.h>

struct dfu_trial trial_of(const struct medium *medium, const struct dfu_driver *driver, uint32_t tries)
{
    return (struct dfu_trial){.flash = medium->bytes,
                              .size = medium->size,
                              .driver = driver,
                              .tries = {.unit = MACHINE_UNIT, .sector = MEDIUM_TRIAL_SECTOR, .tries = tries}};
}

/* An image on trial that was never started is called the next one, because the previous image still runs. */
void trial_words(const struct dfu_trial *trial, uint16_t release, char text[TRIAL_WORDS])
{
    struct dfu_standing standing;
    int length = snprintf(text, TRIAL_WORDS, "%x.%x.%x", release >> 8, release >> 4 & 15, release & 15);
    if (dfu_trial_look(trial, &standing) != 0 || standing.on_trial == 0)
        return;
    snprintf(text + length, TRIAL_WORDS - (size_t)length, ", %son trial, %" PRIu32 " start%s left",
             standing.left == trial->tries.tries ? "next " : "", standing.left, standing.left == 1 ? "" : "s");
}

/* Prints the meaning of a nonzero result of the library, and returns the exit status for the result. */
static int say_result(const char *name, int32_t result)
{
    switch (result) {
    case DFU_NOT_WRITTEN: say_wrong(name, "the trial goes on"); return STATUS_FILE;
    case DFU_ELSEWHERE: say_wrong(name, "no image that may run begins there"); return STATUS_REFUSED;
    default: say_wrong(name, machine_words(result)); return result == DFU_NO_MEDIUM ? STATUS_REFUSED : STATUS_BROKEN;
    }
}

/* Maps the medium, and waits for this program's turn to use it. Returns false, after printing why, if either fails. */
static bool take_medium(struct medium *medium, const char *name)
{
    stop_at_lost_medium();
    if (!medium_map(medium, name, MEDIUM_MARK, MEDIUM_TRIAL_HEAD))
        return false;
    if (medium_turn(medium))
        return true;
    medium_close(medium);
    return false;
}

int start_image(const struct words *words)
{
    struct medium medium;
    struct dfu_place place = {0, 0};
    int32_t result;
    if (!take_medium(&medium, words->medium))
        return STATUS_REFUSED;
    const struct dfu_driver driver = driver_of(&medium);
    const struct dfu_trial trial = trial_of(&medium, &driver, words->tries);
    result = dfu_trial_boot(&trial, &place);
    medium_close(&medium);
    if (result != 0)
        return say_result(words->medium, result);
    printf("%" PRIu32 " %" PRIu32 "\n", place.at, place.length);
    if (fflush(stdout) == 0 && !ferror(stdout))
        return STATUS_DONE;
    say_failed("standard output", "failed");
    return STATUS_FILE;
}

int confirm_image(const struct words *words)
{
    struct medium medium;
    int32_t result;
    if (!take_medium(&medium, words->medium))
        return STATUS_REFUSED;
    const struct dfu_driver driver = driver_of(&medium);
    const struct dfu_trial trial = trial_of(&medium, &driver, words->tries);
    result = dfu_trial_accept(&trial, words->at);
    medium_close(&medium);
    return result == 0 ? STATUS_DONE : say_result(words->medium, result);
}

int end_trial(const struct words *words)
{
    struct medium medium;
    int32_t result;
    if (!take_medium(&medium, words->medium))
        return STATUS_REFUSED;
    const struct dfu_driver driver = driver_of(&medium);
    const struct dfu_trial trial = trial_of(&medium, &driver, words->tries);
    result = dfu_trial_give_up(&trial);
    medium_close(&medium);
    return result == 0 ? STATUS_DONE : say_result(words->medium, result);
}
