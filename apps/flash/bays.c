/* SPDX-License-Identifier: MIT OR Apache-2.0 */
/* Decides whether the device at a path differs from the device that was flashed there before. A device that was flashed starts its image,
 * so it leaves and returns by itself. If it were flashed again each time, this would never end. The rules are:
 *
 * - A device that was seen after its session and is then away for two seconds was pulled out, and the next one is a different device.
 * - A device that returns within ten seconds is a different device if its serial number isn't the last one seen in the same mode.
 * - A device that returns later is the same device if its serial number is the last one seen in the same mode.
 * - A device that can't be opened is a different device if the last one could be opened in the same mode, because access rights depend on
 *   the identifiers.
 * - A device that failed is tried again if it was away for two seconds, but only once unless it was seen in between. */
#include "bays.h"
#include "status.h"

#include <stddef.h>
#include <string.h>

#define PULLED_MS 2000
#define LATE_MS 10000

/* Returns the bay of a path, or NULL if the path has none. */
static struct bay *find(struct bays *bays, const char *path)
{
    for (int at = 0; at < bays->count; at++)
        if (strcmp(bays->list[at].path, path) == 0)
            return &bays->list[at];
    return NULL;
}

/* Makes a new bay in a free entry that records no retry, or in a new entry. Returns NULL if there is no room. */
static struct bay *make(struct bays *bays, const char *path, int64_t now_ms)
{
    int at = 0;
    while (at < bays->count && (bays->list[at].state != BAY_FREE || bays->list[at].has_retried))
        at++;
    if (at == BAYS_ROOM)
        return NULL;
    bays->count += at == bays->count;
    memset(&bays->list[at], 0, sizeof bays->list[at]);
    memcpy(bays->list[at].path, path, sizeof bays->list[at].path);
    bays->list[at].since_ms = now_ms;
    return &bays->list[at];
}

bool bays_have(const struct bays *bays, const char *path)
{
    for (int at = 0; at < bays->count; at++)
        if (bays->list[at].state != BAY_FREE && strcmp(bays->list[at].path, path) == 0)
            return true;
    return false;
}

struct bay *bays_see(struct bays *bays, const struct port *port, int64_t now_ms)
{
    struct bay *bay = find(bays, port->path);
    if (bay == NULL)
        return port->is_wanted ? make(bays, port->path, now_ms) : NULL;
    if (bay->state == BAY_BUSY || (bay->state == BAY_FREE && !port->is_wanted))
        return NULL;
    if (port->is_wanted && (bay->state == BAY_FREE || !bay->is_there)) {
        bay->is_late = bay->state == BAY_DONE && now_ms - bay->since_ms >= LATE_MS;
        bay->is_doubtful = bay->state == BAY_DONE && (bay->was_back || now_ms - bay->since_ms >= PULLED_MS);
        bay->since_ms = now_ms;
        return bay;
    }
    bay->was_back = bay->is_there = true;
    bay->since_ms = now_ms;
    return NULL;
}

static bool is_among(const struct bay *bay, const struct port *ports, int count)
{
    for (int at = 0; at < count; at++)
        if (strcmp(bay->path, ports[at].path) == 0)
            return true;
    return false;
}

/* Returns true if a device has been away long enough to count as pulled out. */
static bool is_pulled(const struct bay *bay, int64_t now_ms)
{
    return (bay->was_back || (bay->has_failed && !bay->has_retried)) && now_ms - bay->since_ms >= PULLED_MS;
}

void bays_miss(struct bays *bays, const struct port *ports, int count, int64_t now_ms)
{
    for (int at = 0; at < bays->count; at++) {
        struct bay *bay = &bays->list[at];
        bool is_there = is_among(bay, ports, count);
        if (bay->state == BAY_BUSY && is_there)
            bay->since_ms = now_ms;
        if (bay->state != BAY_DONE || is_there)
            continue;
        bay->is_there = false;
        if (!is_pulled(bay, now_ms))
            continue;
        bay->state = BAY_FREE;
        bay->has_retried = !bay->was_back;
        if (!bay->has_retried)
            bay->has_serial[0] = bay->has_serial[1] = false;
    }
}

bool bay_is_early(const struct bay *bay)
{
    return bay->state != BAY_FREE && !bay->is_late;
}

/* Returns true if the device in a bay is, or counts as, the one that was flashed there before. */
static bool is_same_as_before(const struct bay *bay, const struct found *info)
{
    const char *before = bay->serial[info->is_upgrade];
    if (bay->state == BAY_FREE)
        return false;
    if (!bay->has_serial[info->is_upgrade] || before[0] == '\0' || info->serial[0] == '\0')
        return !bay->is_late;
    return strcmp(before, info->serial) == 0;
}

int bay_verdict(const struct bay *bay, const struct found *info)
{
    if (!is_same_as_before(bay, info))
        return 0;
    return info->serial[0] == '\0' ? BAY_TAKEN : BAY_SAME;
}

int bay_verdict_unused(const struct bay *bay, const struct found *info, int status)
{
    if (!bay_is_early(bay))
        return 0;
    if (status != STATUS_NO_ACCESS && status != STATUS_SEVERAL)
        return BAY_LEFT;
    return status == STATUS_NO_ACCESS && bay->has_serial[info->is_upgrade] ? 0 : BAY_UNREAD;
}

static const char *words_of(const struct bay *bay, int status)
{
    if (status == BAY_LEFT || (!bay->is_doubtful && !bay->is_late))
        return NULL;
    if (status == BAY_UNREAD)
        return "a device that can't be opened, or has several settings, came soon after, and counts as the one of before; if it is another "
               "one, unplug it for three seconds";
    if (bay->has_failed)
        return "the board here failed, and isn't tried again: to try it, unplug it for three seconds";
    if (status == BAY_TAKEN)
        return "a device without a serial number came soon after, and counts as the one that was flashed here; if it is another one, "
               "unplug it for three seconds";
    if (bay->is_late)
        return "the device that was flashed here is back; another one with its serial number has to be plugged in again";
    /* The device that was flashed returns once by itself, so a message is printed only from the second time on. */
    return bay->was_back ? "a device came soon after the one that was flashed here, and counts as it; if it is another one, unplug it for "
                           "three seconds"
                         : NULL;
}

const char *bay_words(struct bay *bay, int status)
{
    const char *words = bay->has_said ? NULL : words_of(bay, status);
    bay->has_said = bay->has_said || words != NULL;
    return words;
}

void bay_end_same(struct bay *bay, int64_t now_ms)
{
    bay->state = BAY_DONE;
    bay->was_back = bay->is_there = true;
    bay->since_ms = now_ms;
}

/* After a first failure the time away is counted from when the device was last seen, not from the end of the session. */
void bay_end(struct bay *bay, bool has_failed, int64_t now_ms)
{
    bay->state = BAY_DONE;
    bay->was_back = bay->is_there = bay->has_said = false;
    bay->has_failed = has_failed;
    bay->has_retried = bay->has_retried && has_failed;
    if (!has_failed || bay->has_retried)
        bay->since_ms = now_ms;
}
