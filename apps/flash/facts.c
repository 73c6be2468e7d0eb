/* SPDX-License-Identifier: MIT OR Apache-2.0 */
/* Collects the facts about the device after an action, for dfu_watch.h. */
#include "facts.h"
#include "stamp.h"

#include <string.h>

/* Returns true if the device's functional descriptor is the one with which the session began. */
static bool is_as_begun(const struct session *session)
{
    const struct found *info = &session->wire.device->info;
    return info->descriptor_size == session->begin_descriptor_size
           && memcmp(info->descriptor, session->begin_descriptor, sizeof info->descriptor) == 0;
}

/* Returns true if the device is the one that was first found in this mode, or if none was found in it before. With --stamp, a device
 * without a serial number must still have none. */
static bool is_first_again(const struct session *session)
{
    const struct found *info = &session->wire.device->info;
    const struct found *first = &session->first[info->is_upgrade];
    if (!session->has_first[info->is_upgrade])
        return true;
    return is_again(first, info) && (stamp_taken() == NULL || first->serial[0] != '\0' || info->serial[0] == '\0');
}

void facts_note(struct session *session)
{
    const struct found *info = &session->wire.device->info;
    if (session->has_first[info->is_upgrade] || (session->watch.sent && !info->is_upgrade))
        return;
    session->first[info->is_upgrade] = *info;
    session->has_first[info->is_upgrade] = true;
}

struct dfu_facts facts_of(const struct session *session, bool is_reached, bool is_gone)
{
    const struct device *device = session->wire.device;
    return (struct dfu_facts){
        .reached = is_reached,
        .gone = is_gone,
        .many = device->is_many,
        .stopped = *device->is_stop != 0,
        .open = device->handle != NULL,
        .upgrade = device->info.is_upgrade,
        .again = is_first_again(session),
        .same = is_as_begun(session),
    };
}

bool facts_lacks_descriptor(const struct found *info)
{
    return info->is_upgrade && info->descriptor_size == 0 && info->name[0] != '@';
}
