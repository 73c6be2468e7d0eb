/* The events of FunctionFS, and which queued events each of them drops. */
#include "kernel.h"

#include <linux/usb/functionfs.h>
#include <string.h>
#include <unistd.h>

struct endpoint endpoints[2] = {{.gadget = "application", .file = -1, .signals = -1}, {.gadget = "upgrade", .file = -1, .signals = -1}};

struct endpoint *endpoint_of(int file)
{
    for (int at = 0; at < 2; at++)
        if (file >= 0 && endpoints[at].file == file)
            return &endpoints[at];
    return NULL;
}

struct endpoint *joined(void)
{
    for (int at = 0; at < 2; at++)
        if (endpoints[at].is_joined)
            return &endpoints[at];
    return NULL;
}

static bool is_power(uint8_t type)
{
    return type == FUNCTIONFS_SUSPEND || type == FUNCTIONFS_RESUME;
}

static bool is_dropped(uint8_t old, uint8_t new)
{
    switch (new) {
    case FUNCTIONFS_RESUME: return old == FUNCTIONFS_SUSPEND || old == new;
    case FUNCTIONFS_SUSPEND:
    case FUNCTIONFS_SETUP: return old == new;
    default: return !is_power(old);
    }
}

void event_add(struct endpoint *endpoint, uint8_t type)
{
    uint64_t one = 1;
    size_t kept = 0;
    ssize_t written;
    if (endpoint->is_pending) {
        endpoint->is_pending = false;
        endpoint->is_cancelled = true;
    }
    for (size_t at = 0; at < endpoint->count; at++)
        if (!is_dropped(endpoint->types[at], type))
            endpoint->types[kept++] = endpoint->types[at];
    endpoint->types[kept++] = type;
    endpoint->count = kept;
    written = write(endpoint->signals, &one, sizeof one);
    (void)written;
}
