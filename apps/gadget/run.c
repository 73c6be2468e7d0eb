/* SPDX-License-Identifier: MIT OR Apache-2.0 */
/* Implements `run`: sets the device up, and handles its events. */
#define _POSIX_C_SOURCE 200809L
#include "run.h"
#include "bus.h"
#include "messages.h"
#include "stop.h"

#include <errno.h>
#include <poll.h>

/* Indices of the descriptors for poll. */
enum { EVENTS, STOP, CHILD, CONTROLLER_STATE, WAITS };

static bool take_numbers(struct dfu_config *config, const struct words *words)
{
    *config = (struct dfu_config){.version = DFU_VERSION,
                                  .detach_ms = words->detach_ms,
                                  .transfer = words->transfer,
                                  .attributes = words->attributes,
                                  .busy_ms = words->busy_ms,
                                  .manifest_ms = words->manifest_ms,
                                  .least = words->least,
                                  .unit = MACHINE_UNIT,
                                  .sector = words->tries == 0 ? 0 : MEDIUM_TRIAL_SECTOR,
                                  .erase_ms = words->erase_ms,
                                  .program_ms = words->program_ms};
    return controller_number(words->upgrade, "idVendor", &config->vendor)
           && controller_number(words->upgrade, "idProduct", &config->product)
           && controller_number(words->upgrade, "bcdDevice", &config->device);
}

static int set_up(struct bus *bus, struct medium *medium, const struct words *words)
{
    uint8_t functional[9];
    char name[FUNCTION_NAME];
    int32_t refusal;
    if (!medium_map(medium, words->medium, MEDIUM_WRITE, medium_head(words->tries)))
        return STATUS_REFUSED;
    if (words->tries != 0 && !medium_turn(medium))
        return STATUS_FILE;
    bus->machine.tries = words->tries;
    if (!take_numbers(&bus->machine.config, words) || !controller_open(&bus->controller, words->controller))
        return STATUS_MISSING;
    refusal = machine_power_on(&bus->machine, medium, words->dfu_mode);
    if (refusal != 0) {
        say_wrong(words->medium, machine_words(refusal));
        return refusal == DFU_NO_MEDIUM || refusal == DFU_NO_CONFIG ? STATUS_REFUSED : STATUS_BROKEN;
    }
    if (words->least > medium_most(medium->size, medium->head)) {
        say_wrong(words->medium, "has no room for an image of --least bytes: no download could end");
        return STATUS_REFUSED;
    }
    machine_functional(&bus->machine, functional);
    bus_name(bus, name);
    return function_open(&bus->functions[APPLICATION], words->application, PROTOCOL_RUN_TIME, functional, name)
                   && function_open(&bus->functions[UPGRADE], words->upgrade, PROTOCOL_DFU, functional, name)
               ? STATUS_DONE
               : STATUS_MISSING;
}

/* Handles the events of FunctionFS after poll has reported them. If a reset changes the gadget on the bus, the setup packet after it is
 * dropped. */
static int take_events(struct bus *bus)
{
    struct function *function = &bus->functions[bus->mode];
    struct events events;
    int mode = bus->mode;
    if (!function_read(function, controller_is_new_state(&bus->controller), &events)) {
        say_failed(function->gadget, "gives no events");
        return STATUS_BUS;
    }
    if (events.is_gone) {
        say_wrong(function->gadget, "somebody else has taken it off the bus");
        return STATUS_BUS;
    }
    if (events.is_reset)
        bus_reset(bus);
    if (!bus_settle(bus))
        return STATUS_BUS;
    if (events.has_setup && mode == bus->mode)
        bus_serve(bus, events.setup);
    return STATUS_DONE;
}

/* Handles everything that poll reported. Without a FunctionFS event, a new state of the controller belongs to an event that was read
 * before. */
static int take_what_came(struct bus *bus, const struct pollfd waits[WAITS])
{
    if (waits[CHILD].revents != 0)
        installed_end(&bus->installed);
    if ((waits[EVENTS].revents & POLLIN) != 0)
        return take_events(bus);
    if (waits[EVENTS].revents != 0) {
        say_wrong(bus->functions[bus->mode].gadget, "its FunctionFS is gone");
        return STATUS_BUS;
    }
    if (waits[CONTROLLER_STATE].revents != 0)
        controller_is_new_state(&bus->controller);
    bus_pass(bus);
    return STATUS_DONE;
}

/* With images on trial other programs get their turn at the medium during this wait. */
static int wait_once(struct bus *bus)
{
    struct function *function = &bus->functions[bus->mode];
    bool has_turns = bus->machine.tries != 0;
    int ready;
    struct pollfd waits[WAITS] = {[EVENTS] = {.fd = function->ep0, .events = POLLIN},
                                  [STOP] = {.fd = stop_descriptor(), .events = POLLIN},
                                  [CHILD] = {.fd = bus->installed.child, .events = POLLIN},
                                  [CONTROLLER_STATE] = {.fd = bus->controller.state, .events = POLLPRI}};
    function_rest(function);
    if (has_turns)
        medium_give_turn(bus->machine.medium);
    ready = poll(waits, WAITS, bus_pause(bus));
    if (ready < 0 && errno != EINTR) {
        say_failed("poll", "failed");
        return STATUS_BUS;
    }
    if (stop_signal() != 0)
        return STATUS_DONE;
    if (has_turns && !medium_turn(bus->machine.medium))
        return STATUS_FILE;
    machine_again(&bus->machine);
    return bus_is_sound(bus) ? take_what_came(bus, waits) : STATUS_DONE;
}

static int serve(struct bus *bus)
{
    int status = STATUS_DONE;
    while (status == STATUS_DONE && stop_signal() == 0 && bus_is_sound(bus)) {
        if (!bus_settle(bus))
            return STATUS_BUS;
        status = wait_once(bus);
    }
    if (bus_is_sound(bus))
        return status;
    say_wrong(bus->machine.medium->name, machine_words(bus->machine.refusal));
    return bus->machine.refusal == DFU_NO_MEDIUM ? STATUS_MEDIUM : STATUS_BROKEN;
}

int run_device(const struct words *words)
{
    static struct bus bus;
    struct medium medium = {.file = -1};
    int status;
    bus.mode = NOWHERE;
    bus.controller.state = -1;
    for (int mode = 0; mode < MODES; mode++)
        bus.functions[mode].ep0 = bus.functions[mode].signals = -1;
    bus.check = (struct check){.program = words->check, .medium = words->medium};
    bus.installed = (struct installed){.command = words->command, .medium = words->medium, .child = -1};
    say_is_verbose = words->verbose;
    if (words->log != NULL && !say_to(words->log))
        return STATUS_FILE;
    stop_at_lost_medium();
    if (!stop_catch()) {
        say_failed("a pipe", "can't be had");
        return STATUS_FILE;
    }
    status = set_up(&bus, &medium, words);
    if (status == STATUS_DONE)
        status = serve(&bus);
    bus_leave(&bus);
    for (int mode = 0; mode < MODES; mode++)
        function_close(&bus.functions[mode]);
    controller_close(&bus.controller);
    medium_close(&medium);
    say_no_more(words->log);
    if (stop_signal() != 0)
        say_event("ended: by signal %d", stop_signal());
    return status;
}
