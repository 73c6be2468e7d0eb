/* SPDX-License-Identifier: MIT OR Apache-2.0 */
/* --detach: only brings a device to DFU mode, by this program's own DETACH (detach.c). The host isn't used. */
#include "dfu_mode.h"
#include "detach.h"
#include "status.h"
#include "stop.h"

#include <stdio.h>

struct outcome {
    int status;
    const char *name, *words;
};

static const struct outcome outcomes[] = {
    {STATUS_DONE, "detached", "the device is in DFU mode"},
    {STATUS_GONE, "gone", "the device left for DFU mode, and did not come back"},
    {STATUS_STALLED, "not-detached", "the device stays in run-time mode: bring it to DFU mode by hand, as by its button"},
    {STATUS_ABORTED, "aborted", "given up by Ctrl-C or a signal; the device may come to DFU mode still"},
    {STATUS_GIVEN_UP, "timed-out", "the time is spent; the device may come to DFU mode still"},
    {STATUS_DONE, "detached", "the device was in DFU mode already: nothing was sent"},
};

/* If the device returned with several settings, is_detached is false although the device is in DFU mode, as device->info shows. */
static const struct outcome *outcome_of(const struct device *device, bool is_detached)
{
    if (is_detached || device->info.is_upgrade)
        return &outcomes[0];
    if (*device->is_stop == STOP_TIME)
        return &outcomes[4];
    if (*device->is_stop != STOP_NONE)
        return &outcomes[3];
    return device->handle == NULL ? &outcomes[1] : &outcomes[2];
}

struct verdict dfu_mode(struct session *session)
{
    struct device *device = session->wire.device;
    bool was_there = device->info.is_upgrade;
    const struct outcome *outcome = was_there ? &outcomes[5] : outcome_of(device, detach(&session->wire));
    struct verdict verdict = {.status = outcome->status};
    snprintf(verdict.name, sizeof verdict.name, "%s", outcome->name);
    snprintf(verdict.words, sizeof verdict.words, "%s", outcome->words);
    return verdict;
}
