/* SPDX-License-Identifier: MIT OR Apache-2.0 */
/* Passes requests, time and resets from the bus to the machine, and sends the machine's answers to the host. */
#include "bus.h"
#include "clock.h"
#include "messages.h"
#include "../common/names.h"

#include <string.h>

/* Runs the command of --on-installed if the machine has installed another image since the last call. */
static void look(struct bus *bus)
{
    if (!bus->machine.is_installed || bus->machine.refusal != 0)
        return;
    bus->machine.is_installed = false;
    installed_run(&bus->installed, bus->machine.place.at, bus->machine.place.length);
}

/* In dfuDNBUSY and dfuMANIFEST the machine gets the host's whole waiting time at once, so it does its work immediately. Elapsed time counts
 * only in appDETACH. */
void bus_pass(struct bus *bus)
{
    int32_t before = machine_state(&bus->machine);
    int64_t now = clock_ms(), ms = before == DFU_STATE_APP_DETACH ? now - bus->last_tick_ms : machine_due(&bus->machine);
    bus->last_tick_ms = now;
    if (ms <= 0)
        return;
    machine_pass(&bus->machine, ms);
    if (machine_state(&bus->machine) != before)
        say_change("time", ms, machine_state(&bus->machine));
    look(bus);
}

void bus_reset(struct bus *bus)
{
    bus_pass(bus);
    machine_reset(&bus->machine);
    say_reset(machine_state(&bus->machine));
    look(bus);
}

void bus_leave(struct bus *bus)
{
    if (bus->mode != NOWHERE)
        controller_leave(bus->functions[bus->mode].gadget);
    bus->mode = NOWHERE;
}

void bus_name(const struct bus *bus, char name[FUNCTION_NAME])
{
    if (bus->machine.tries == 0)
        memcpy(name, "Firmware", sizeof "Firmware");
    else
        trial_words(&bus->machine.trial, bus->machine.config.device, name);
}

/* Changing from one gadget to the other on the bus isn't a reset for the machine. */
bool bus_settle(struct bus *bus)
{
    char name[FUNCTION_NAME];
    int wanted = machine_is_upgrade(&bus->machine) ? UPGRADE : APPLICATION;
    struct function *function = &bus->functions[wanted];
    if (wanted == bus->mode)
        return true;
    bus_leave(bus);
    bus_name(bus, name);
    if (!function_rename(function, name))
        return false;
    function_begin(function);
    controller_is_new_state(&bus->controller);
    if (!controller_join(&bus->controller, function->gadget))
        return false;
    bus->mode = wanted;
    say_event("joins: %s, %s", function->gadget, state_name(machine_state(&bus->machine)));
    return true;
}

/* Sends an answer, an acknowledgement or a stall. A data stage that was received is already acknowledged. */
static void send(struct function *function, const uint8_t setup[8], int32_t answer, const uint8_t *out)
{
    if (answer < 0)
        function_stall(function, setup);
    else if ((setup[0] & 0x80) != 0)
        function_answer(function, out, (size_t)answer);
    else if (setup[6] == 0 && setup[7] == 0)
        function_acknowledge(function);
}

/* Returns true if this setup packet closes a download and the program of --check refuses the image, after which the machine is in dfuERROR,
 * or if the library failed. An image that can't be checked is refused too. */
static bool is_refused(struct bus *bus, const uint8_t setup[8])
{
    struct dfu_place place;
    uint8_t why;
    if (bus->check.program == NULL || !machine_closes(&bus->machine, setup, &place))
        return bus->machine.refusal != 0;
    why = check_image(&bus->check, place.at, place.length);
    return why != 0 && machine_refuse_close(&bus->machine, setup, why);
}

/* Handles a request. The data stage is received only if the library won't stall the request. Returns false if the host gave up. */
static bool decide(struct bus *bus, const uint8_t setup[8], uint8_t out[MAX_TRANSFER], int32_t *answer)
{
    uint8_t body[MAX_TRANSFER];
    size_t length = (size_t)(setup[6] | setup[7] << 8);
    switch (machine_plan(&bus->machine, setup)) {
    case PLAN_STALL:
        *answer = DFU_STALL;
        say_exchange(setup, body, 0, DFU_STALL, out);
        return true;
    case PLAN_ANSWER:
        length = 0;
        if (!is_refused(bus, setup))
            break;
        *answer = DFU_STALL;
        if (bus->machine.refusal == 0)
            say_exchange(setup, body, 0, DFU_STALL, out);
        return true;
    case PLAN_TAKE:
        if (function_take(&bus->functions[bus->mode], body, length) != (int)length)
            return false;
        break;
    }
    *answer = machine_handle(&bus->machine, setup, body, out);
    if (bus->machine.refusal == 0)
        say_exchange(setup, body, length, *answer, out);
    return true;
}

/* FunctionFS has replaced wIndex by this function's own interface number, which is 0, as in the configuration. Requests that aren't DFU
 * class requests are stalled. */
void bus_serve(struct bus *bus, const uint8_t setup[8])
{
    struct function *function = &bus->functions[bus->mode];
    uint8_t out[MAX_TRANSFER];
    int32_t answer = DFU_STALL;
    int64_t began = clock_ms();
    bus_pass(bus);
    if ((setup[0] & 0x7f) == 0x21 && !decide(bus, setup, out, &answer)) {
        say_event("gave-up: the host sent no data stage");
        return;
    }
    if (bus->machine.refusal == 0)
        send(function, setup, answer, out);
    say_request(setup, answer, out, machine_state(&bus->machine), clock_ms() - began);
    look(bus);
    bus_pass(bus);
}

int bus_pause(struct bus *bus)
{
    int64_t left = bus->last_tick_ms + machine_due(&bus->machine) - clock_ms();
    if (machine_state(&bus->machine) != DFU_STATE_APP_DETACH)
        return -1;
    return left < 0 ? 0 : (int)left;
}

bool bus_is_sound(const struct bus *bus)
{
    return bus->machine.refusal == 0;
}
