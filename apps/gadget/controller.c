/* SPDX-License-Identifier: MIT OR Apache-2.0 */
/* The controller's state is a file below /sys/class/udc. A gadget is on the bus of the controller that is named in its file UDC. */
#define _POSIX_C_SOURCE 200809L
#include "controller.h"
#include "paths.h"
#include "messages.h"

#include <errno.h>
#include <fcntl.h>
#include <poll.h>
#include <stdio.h>
#include <stdlib.h>
#include <string.h>
#include <unistd.h>

#define MAX_LINE 256

bool controller_open(struct controller *controller, const char *name)
{
    char path[MAX_PATH_BYTES], line[MAX_LINE];
    *controller = (struct controller){.name = name, .state = -1};
    if (!path_is_name(name) || !path_of_controller(path, name, "state"))
        return say_wrong(name, "it is no name of a controller");
    controller->state = open(path, O_RDONLY | O_CLOEXEC);
    if (controller->state < 0 || read(controller->state, line, sizeof line) < 0)
        return say_failed(path, "can't be read");
    return true;
}

void controller_close(struct controller *controller)
{
    if (controller->state >= 0)
        close(controller->state);
    controller->state = -1;
}

/* Reading the file from its beginning resets poll for the next change. If the controller is gone, so is the file. */
bool controller_is_new_state(struct controller *controller)
{
    char line[MAX_LINE];
    struct pollfd wait = {.fd = controller->state, .events = POLLPRI};
    if (controller->state < 0)
        return true;
    if (poll(&wait, 1, 0) <= 0)
        return false;
    if (pread(controller->state, line, sizeof line, 0) < 0)
        controller_close(controller);
    return true;
}

static bool set_controller(const char *gadget, const char *name)
{
    char path[MAX_PATH_BYTES], line[MAX_LINE];
    int length = snprintf(line, sizeof line, "%s\n", name), file, error;
    bool is_set;
    if (!path_of_gadget(path, gadget, "UDC"))
        return say_wrong(gadget, "its path is too long");
    file = open(path, O_WRONLY | O_CLOEXEC);
    is_set = file >= 0 && write(file, line, (size_t)length) == length;
    error = errno;
    if (file >= 0)
        close(file);
    errno = error;
    return is_set;
}

bool controller_join(const struct controller *controller, const char *gadget)
{
    return set_controller(gadget, controller->name) || say_failed(gadget, "can't come to the controller's bus");
}

/* ENODEV means that the gadget has already left, for example because the controller is gone. */
bool controller_leave(const char *gadget)
{
    return set_controller(gadget, "") || errno == ENODEV || say_failed(gadget, "can't leave the bus");
}

bool controller_number(const char *gadget, const char *attribute, uint16_t *number)
{
    char path[MAX_PATH_BYTES], line[MAX_LINE], *end;
    unsigned long found;
    if (!path_is_name(gadget) || !path_of_gadget(path, gadget, attribute))
        return say_wrong(gadget, "it is no name of a gadget");
    if (!path_line(path, line, sizeof line))
        return say_failed(path, "can't be read");
    found = strtoul(line, &end, 16);
    if (end == line || *end != '\0' || found > UINT16_MAX)
        return say_wrong(path, "it has no number of 16 bits");
    *number = (uint16_t)found;
    return true;
}
