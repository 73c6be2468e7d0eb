/* SPDX-License-Identifier: MIT OR Apache-2.0 */
#include "../misfits.h"
#include "../station.h"
#include "../messages.h"

#include <stdio.h>
#include <string.h>

#define NAMED_ROOM 64 /* when the list is full no more boards are printed, because they would be printed again at each poll */

/* Paths of misfits that were printed or skipped, and are still connected. */
static char named[NAMED_ROOM][PATH_ROOM];
static int named_count;
static bool has_looked;

static bool is_there(const char *path, const struct port *ports, int count)
{
    for (int at = 0; at < count; at++)
        if (ports[at].is_misfit && strcmp(ports[at].path, path) == 0)
            return true;
    return false;
}

static void forget_gone(const struct port *ports, int count)
{
    int left = 0;
    for (int at = 0; at < named_count; at++)
        if (is_there(named[at], ports, count))
            memmove(named[left++], named[at], PATH_ROOM);
    named_count = left;
}

static bool is_named(const char *path)
{
    for (int at = 0; at < named_count; at++)
        if (strcmp(named[at], path) == 0)
            return true;
    return false;
}

static void say_misfit(const struct port *port)
{
    const char *name = station_port(port->path);
    fprintf(stderr, "%s: dfu-flash: ", port->path);
    if (name != NULL)
        say_text(stderr, "", name, ": ");
    fprintf(stderr, "the board here is %04x:%04x, for which the file is not; it is left alone\n", port->vendor, port->product);
}

void misfits_see(const struct bays *bays, const struct port *ports, int count, bool are_listed)
{
    forget_gone(ports, count);
    for (int at = 0; at < count && named_count < NAMED_ROOM; at++) {
        const struct port *port = &ports[at];
        if (!port->is_misfit || is_named(port->path) || bays_have(bays, port->path))
            continue;
        memcpy(named[named_count++], port->path, PATH_ROOM);
        if (has_looked || (!are_listed && (port->is_upgrade || station_port(port->path) != NULL)))
            say_misfit(port);
    }
    has_looked = true;
}
