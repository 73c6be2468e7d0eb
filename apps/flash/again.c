/* SPDX-License-Identifier: MIT OR Apache-2.0 */
/* A board that returns is recognized by its serial number if no other connected board has the same number. A board without a serial number
 * may have been replaced while it was disconnected, so the stamp entry of the last attempt counts as used. */
#include "again.h"
#include "advice.h"
#include "clock.h"
#include "device.h"
#include "find.h"
#include "messages.h"
#include "stamp.h"
#include "station.h"

#include <stdio.h>
#include <string.h>

/* Returns the description of the board when it was first found in this mode, or in the other mode if it wasn't found in this one. */
static const struct found *seen_before(const struct session *session, bool is_upgrade)
{
    return &session->first[session->has_first[is_upgrade] ? is_upgrade : !is_upgrade];
}

/* Returns true if a board at another path has this serial number too, or if the bus can't be searched. */
static bool is_shared(const struct device *device)
{
    const struct wanted named = {.serial = device->info.serial, .place = ANYWHERE};
    struct found list[FOUND_ROOM];
    int count = find_all(device->usb, &named, list, FOUND_ROOM);
    bool is_shared = count < 0;
    for (int at = 0; at < count; at++)
        is_shared = is_shared || (list[at].access == 0 && strcmp(list[at].path, device->path) != 0);
    found_drop(list, count);
    return is_shared;
}

bool again_is_same(const struct session *session)
{
    const struct found *now = &session->wire.device->info, *before = seen_before(session, now->is_upgrade);
    return now->serial[0] != '\0' && strcmp(before->serial, now->serial) == 0 && !is_shared(session->wire.device);
}

bool again_is_doubtful(const struct session *session, uint32_t seen)
{
    const struct found *now = &session->wire.device->info, *before = seen_before(session, now->is_upgrade);
    bool has_sent = (session->dfuse.is_active ? session->dfuse.watch.sent : session->watch.sent) != 0;
    if (seen != DFU_SEEN_RESTART || !has_sent || stamp_taken() == NULL || (now->serial[0] != '\0' && before->serial[0] != '\0'))
        return false;
    advice_first("a board came that may be another one, as it has no serial number, and was sent nothing");
    return true;
}

void again_leave_entry(const struct session *session, const struct words *words)
{
    const struct device *device = session->wire.device;
    const struct verdict last = verdict_of(session);
    if (!words->quiet)
        fputs("dfu-flash: what came may be another board, so it gets the next entry\n", stderr);
    station_add(last.status, last.name, last.words, device->path, seen_before(session, device->info.is_upgrade),
                (double)(clock_ms() - session->began_ms) / 1000);
    stamp_is(NULL, NULL);
}
