/* SPDX-License-Identifier: MIT OR Apache-2.0 */
/* The device on the bus: selects one of its two gadgets, and passes time and resets to the machine. */
#ifndef DFU_GADGET_BUS_H
#define DFU_GADGET_BUS_H

#include "check.h"
#include "controller.h"
#include "function.h"
#include "installed.h"
#include "machine.h"

enum { APPLICATION, UPGRADE, MODES, NOWHERE = -1 };

struct bus {
    struct machine machine;
    struct controller controller;
    struct function functions[MODES];
    struct check check;
    struct installed installed;
    int mode;             /* index of the gadget that is on the bus, or NOWHERE */
    int64_t last_tick_ms; /* time in ms up to which the machine has been advanced */
};

/* Does the pending work, and in appDETACH passes the elapsed time to the machine. Must be called after an answer was sent, before a
 * request, and before a reset. */
void bus_pass(struct bus *bus);

/* Handles a bus reset. */
void bus_reset(struct bus *bus);

/* Puts the gadget for the machine's mode on the bus. Returns false if that fails. */
bool bus_settle(struct bus *bus);

/* Writes the name of the interface: `Firmware`, or with images on trial the version and the state of the trial. */
void bus_name(const struct bus *bus, char name[FUNCTION_NAME]);
void bus_leave(struct bus *bus);

/* Answers the setup packet, and then does the work that it started. */
void bus_serve(struct bus *bus, const uint8_t setup[8]);

/* Returns the timeout for poll in ms: the rest of the appDETACH time, or -1 in other states. */
int bus_pause(struct bus *bus);

/* Returns false if the library has refused a call, so that the machine can't continue. */
bool bus_is_sound(const struct bus *bus);

#endif
