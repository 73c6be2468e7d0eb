/* SPDX-License-Identifier: MIT OR Apache-2.0 */
/* Calls the proved library. If a call requests writes, they are made one by one in the requested order. Each is on the disk before the next
 * begins, and no other call is made until then. */
#include "machine.h"
#include "dfu_device_memory.h"
#include "driver.h"
#include "messages.h"

#include <string.h>

/* Returns a configuration for calls that use only its unit and its sector. The sector is 0, so that the file is overwritten in place,
 * except with images on trial. */
static struct dfu_config layout(uint32_t sector)
{
    return (struct dfu_config){.version = DFU_VERSION,
                               .transfer = 1,
                               .attributes = DFU_MANIFESTATION_TOLERANT,
                               .least = 1,
                               .unit = MACHINE_UNIT,
                               .sector = sector};
}

static int32_t note(struct machine *machine, int32_t answer)
{
    if (answer < DFU_STALL && machine->refusal == 0)
        machine->refusal = answer;
    return answer;
}

static const uint8_t *gate_of(const struct machine *machine)
{
    return machine->medium->bytes + machine->place.at - MEDIUM_TRIAL_HEAD;
}

static void note_gate(struct machine *machine)
{
    if (machine->tries != 0)
        memcpy(machine->gate, gate_of(machine), sizeof machine->gate);
}

static bool is_gate_noted(const struct machine *machine)
{
    return memcmp(machine->gate, gate_of(machine), sizeof machine->gate) == 0;
}

/* Finds the active image. If it begins at another offset than before, another image was installed. */
static void look_for_image(struct machine *machine)
{
    struct dfu_place place;
    if (dfu_device_image(&machine->device, &place) != 0)
        return;
    machine->is_installed = machine->is_installed || place.at != machine->place.at;
    machine->place = place;
    note_gate(machine);
}

/* Makes the pending writes, and returns the final answer of the library. */
static int32_t settle(struct machine *machine, int32_t answer, uint8_t *out, size_t room)
{
    int32_t state = dfu_device_state(&machine->device);
    bool may_install = answer == DFU_WRITE_PENDING && (state == DFU_STATE_MANIFEST_SYNC || state == DFU_STATE_MANIFEST);
    answer = note(machine, dfu_device_settle(&machine->device, answer, out, room));
    if (may_install)
        look_for_image(machine);
    return answer;
}

int32_t machine_power_on(struct machine *machine, const struct medium *medium, bool is_upgrade)
{
    struct dfu_device *device = &machine->device;
    machine->medium = medium;
    machine->refusal = 0;
    machine->driver = driver_of(medium);
    *device = (struct dfu_device){.config = &machine->config,
                                  .flash = medium->bytes,
                                  .size = medium->size,
                                  .block = machine->block,
                                  .most = sizeof machine->block,
                                  .driver = &machine->driver};
    if (note(machine, is_upgrade ? dfu_device_begin(device) : dfu_device_power_on(device)) == 0)
        note(machine, dfu_device_image(device, &machine->place));
    machine->trial = trial_of(medium, &machine->driver, machine->tries);
    if (machine->refusal == 0)
        note_gate(machine);
    return machine->refusal;
}

void machine_again(struct machine *machine)
{
    if (machine->tries == 0 || is_gate_noted(machine))
        return;
    say_event("trial: ended by another program");
    machine_power_on(machine, machine->medium, machine_is_upgrade(machine));
}

/* A download ends a trial first, because it would overwrite the image that was confirmed. An upload also ends it if no start is left,
 * because a host would verify an image that is never started again. Returns false if the request must be stalled. */
static bool make_room(struct machine *machine, const uint8_t setup[8])
{
    int32_t answer = dfu_trial_transfer(&machine->trial, &machine->device, setup);
    if (answer != 0) {
        if (answer != DFU_NOT_WRITTEN)
            note(machine, answer);
        return false;
    }
    if (is_gate_noted(machine))
        return true;
    say_event(setup[1] == DFU_DNLOAD ? "trial: ended by a download" : "trial: ended by an upload, since no start was left");
    note(machine, dfu_device_image(&machine->device, &machine->place));
    note_gate(machine);
    return machine->refusal == 0;
}

/* Receiving a data stage acknowledges it, so the library is called first to find out if it would stall the request. */
enum plan machine_plan(struct machine *machine, const uint8_t setup[8])
{
    size_t length = (size_t)(setup[6] | setup[7] << 8);
    if (machine->tries != 0 && !make_room(machine, setup))
        return PLAN_STALL;
    if ((setup[0] & 0x80) != 0 || length == 0)
        return PLAN_ANSWER;
    if (length > machine->config.transfer) {
        note(machine, dfu_device_too_long(&machine->device, setup));
        return PLAN_STALL;
    }
    if (note(machine, dfu_device_would_stall(&machine->device, setup)) == 0)
        return PLAN_TAKE;
    if (machine->refusal == 0) {
        uint8_t out[MAX_TRANSFER], body[MAX_TRANSFER] = {0};
        machine_handle(machine, setup, body, out);
    }
    return PLAN_STALL;
}

int32_t machine_handle(struct machine *machine, const uint8_t setup[8], const uint8_t *body, uint8_t out[MAX_TRANSFER])
{
    return settle(machine, dfu_device_handle(&machine->device, setup, body, out, MAX_TRANSFER), out, MAX_TRANSFER);
}

/* Every byte of the image is on the disk as soon as it was received, because the medium's unit is one byte and nothing is held back in
 * memory. */
bool machine_closes(struct machine *machine, const uint8_t setup[8], struct dfu_place *place)
{
    return note(machine, dfu_device_closes(&machine->device, setup)) == 1
           && note(machine, dfu_device_candidate(&machine->device, place)) == 0;
}

bool machine_refuse_close(struct machine *machine, const uint8_t setup[8], uint8_t why)
{
    int32_t answer = dfu_device_refuse_close(&machine->device, setup, why);
    return answer == DFU_STALL || (answer != DFU_NO_CLOSE && note(machine, answer) < 0);
}

void machine_pass(struct machine *machine, int64_t ms)
{
    uint8_t out[MAX_TRANSFER];
    uint32_t passed = ms < 0 ? 0 : ms > UINT32_MAX ? UINT32_MAX : (uint32_t)ms;
    settle(machine, dfu_device_elapse(&machine->device, passed), out, sizeof out);
}

void machine_reset(struct machine *machine)
{
    note(machine, dfu_device_usb_reset(&machine->device));
}

int64_t machine_due(struct machine *machine)
{
    int32_t due = note(machine, dfu_device_due(&machine->device));
    return due < 0 ? 0 : due;
}

int32_t machine_state(struct machine *machine)
{
    return note(machine, dfu_device_state(&machine->device));
}

bool machine_is_upgrade(struct machine *machine)
{
    return machine_state(machine) >= DFU_STATE_IDLE;
}

int32_t machine_functional(const struct machine *machine, uint8_t out[9])
{
    return dfu_device_functional(&machine->config, out);
}

int32_t machine_image(const struct medium *medium, struct dfu_place *place)
{
    const struct dfu_config config = layout(medium->head == MEDIUM_TRIAL_HEAD ? MEDIUM_TRIAL_SECTOR : 0);
    return dfu_core_image(&config, medium->bytes, medium->size, place);
}

int32_t machine_format(uint8_t *memory, size_t size, const uint8_t *image, size_t length, uint32_t tries)
{
    const struct dfu_config config = layout(tries == 0 ? 0 : MEDIUM_TRIAL_SECTOR);
    return tries == 0 ? dfu_memory_format(&config, memory, size, image, length)
                      : dfu_trial_format_memory(&config, tries, memory, size, image, length);
}

const char *machine_words(int32_t refusal)
{
    switch (refusal) {
    case DFU_NO_CONFIG: return "a number of the configuration is out of its range";
    case DFU_NO_MEDIUM: return "it has no image: `dfu-gadget format` makes a medium";
    case DFU_WRONG_SIZE: return "it has no size that two slots can have";
    case DFU_TOO_LARGE: return "the image is longer than --most";
    default: return "the library refused its own record";
    }
}
