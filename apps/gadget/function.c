/* SPDX-License-Identifier: MIT OR Apache-2.0 */
/* FunctionFS doesn't report a bus reset as such. If a configuration was set, FunctionFS reports DISABLE when the bus is reset, the cable is
 * pulled or another configuration is set, and after a reset it reports ENABLE when the host sets a configuration. Either event drops the
 * events that weren't read. A program that reads late therefore finds only ENABLE, just as after a SET_INTERFACE, which dfu-util sends each
 * time. A reset is recognized by two signs together: the eventfd also counts dropped events, and a reset writes the controller's state. */
#define _GNU_SOURCE
#include "function.h"
#include "descriptors.h"
#include "paths.h"
#include "messages.h"

#include <errno.h>
#include <fcntl.h>
#include <linux/usb/functionfs.h>
#include <poll.h>
#include <stdio.h>
#include <string.h>
#include <sys/eventfd.h>
#include <unistd.h>

#define MAX_EVENTS 4 /* number of events that FunctionFS keeps */

static int open_signals(void)
{
    return eventfd(0, EFD_CLOEXEC | EFD_NONBLOCK);
}

bool function_open(struct function *function, const char *gadget, uint8_t protocol, const uint8_t functional[9], const char *name)
{
    char path[MAX_PATH_BYTES];
    *function = (struct function){.gadget = gadget, .protocol = protocol, .ep0 = -1, .signals = -1};
    memcpy(function->functional, functional, sizeof function->functional);
    snprintf(function->name, sizeof function->name, "%s", name);
    if (!path_of_function(path, gadget))
        return say_wrong(gadget, "its path is too long");
    function->signals = open_signals();
    function->ep0 = open(path, O_RDWR | O_CLOEXEC);
    if (function->ep0 < 0 || function->signals < 0)
        return say_failed(path, "can't be opened");
    if (descriptors_write(function->ep0, function->signals, protocol, functional, function->name))
        return true;
    say_failed(path, "takes no descriptors of DFU");
    return errno == EINVAL ? say_wrong(path, "Linux takes them from 6.11 on") : false;
}

/* After the last function is closed, the kernel removes the gadget from the bus. */
void function_close(struct function *function)
{
    if (function->ep0 >= 0)
        close(function->ep0);
    if (function->signals >= 0)
        close(function->signals);
    function->ep0 = function->signals = -1;
}

bool function_rename(struct function *function, const char *name)
{
    const struct function before = *function;
    if (strcmp(before.name, name) == 0)
        return true;
    function_close(function);
    return function_open(function, before.gadget, before.protocol, before.functional, name);
}

static void count(struct function *function)
{
    uint64_t more = 0;
    if (read(function->signals, &more, sizeof more) == (ssize_t)sizeof more)
        function->unread += (int64_t)more;
}

static bool has_event(const struct function *function)
{
    struct pollfd wait = {.fd = function->ep0, .events = POLLIN};
    return poll(&wait, 1, 0) > 0 && (wait.revents & POLLIN) != 0;
}

/* Reads the pending events. Returns their number, or -1. */
static int read_events(struct function *function, struct usb_functionfs_event events[MAX_EVENTS])
{
    ssize_t length = read(function->ep0, events, MAX_EVENTS * sizeof *events);
    int found = length < 0 ? -1 : (int)(length / (ssize_t)sizeof *events);
    if (found > 0)
        function->unread -= found;
    return found;
}

/* The events are counted before the check for a pending one. An event that arrives in between is found by the check, so it isn't counted as
 * dropped. */
void function_rest(struct function *function)
{
    count(function);
    if (!has_event(function))
        function->dropped = function->unread;
}

void function_begin(struct function *function)
{
    struct usb_functionfs_event events[MAX_EVENTS];
    for (int turn = 0; turn < MAX_EVENTS && has_event(function); turn++)
        if (read_events(function, events) < 0)
            break;
    function_rest(function);
    function->is_enabled = false;
}

/* Returns true if more events were dropped after those that were read. While a setup packet is pending, poll reports only that packet.
 * Otherwise an event that poll reports is a new one, which isn't counted as dropped. */
static bool is_more_dropped(struct function *function, bool has_setup)
{
    count(function);
    return function->unread - function->dropped - (!has_setup && has_event(function) ? 1 : 0) > 0;
}

static void take_event(struct function *function, const struct usb_functionfs_event *event, bool may_be_reset, struct events *events)
{
    switch (event->type) {
    case FUNCTIONFS_SETUP:
        events->has_setup = true;
        memcpy(events->setup, &event->u.setup, 8);
        break;
    case FUNCTIONFS_DISABLE:
        events->is_reset = events->is_reset || function->is_enabled;
        function->is_enabled = false;
        break;
    case FUNCTIONFS_ENABLE:
        events->is_reset = events->is_reset || (function->is_enabled && may_be_reset);
        function->is_enabled = true;
        break;
    case FUNCTIONFS_UNBIND: events->is_gone = true; break;
    default: break;
    }
}

/* EIDRM means that the host gave up the pending setup packet. */
bool function_read(struct function *function, bool is_new_state, struct events *events)
{
    struct usb_functionfs_event found[MAX_EVENTS];
    int many = read_events(function, found);
    bool may_be_reset, has_setup = false;
    *events = (struct events){0};
    if (many < 0)
        return errno == EIDRM || errno == EINTR || errno == EAGAIN;
    for (int at = 0; at < many; at++)
        has_setup = has_setup || found[at].type == FUNCTIONFS_SETUP;
    may_be_reset = is_more_dropped(function, has_setup) && is_new_state;
    for (int at = 0; at < many; at++)
        take_event(function, &found[at], may_be_reset, events);
    return true;
}

int function_take(struct function *function, uint8_t *body, size_t length)
{
    return (int)read(function->ep0, body, length);
}

/* If the host has given up, the answer isn't sent, and the next event reports what the host did. */
void function_answer(struct function *function, const uint8_t *bytes, size_t length)
{
    ssize_t count = write(function->ep0, bytes, length);
    (void)count;
}

void function_acknowledge(struct function *function)
{
    char none[1];
    ssize_t count = read(function->ep0, none, 0);
    (void)count;
}

/* A transfer in the wrong direction makes FunctionFS stall the request. */
void function_stall(struct function *function, const uint8_t setup[8])
{
    char none[1] = "";
    ssize_t count = (setup[0] & 0x80) != 0 ? read(function->ep0, none, 0) : write(function->ep0, none, 0);
    (void)count;
}
