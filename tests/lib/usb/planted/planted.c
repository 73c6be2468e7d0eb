/* SPDX-License-Identifier: MIT OR Apache-2.0 */
/* Wraps calls of dfu-flash by the linker's --wrap: the call that PLANTED names returns a number that it never returns otherwise. PLANTED is
 * a name and a number, for example `dfu_watch_after 1000`. For a report it is the number of the report, and a third word is its second
 * number. All other calls are unchanged. */
#include "device.h"

#include <dfu_host.h>
#include <dfu_image.h>
#include <dfu_watch.h>
#include <dfuse_host.h>
#include <dfuse_watch.h>
#include <stdio.h>
#include <stdlib.h>
#include <string.h>

/* Returns 1 if PLANTED is for this call, with its numbers. */
static int is_planted(const char *name, uint32_t *number, uint32_t *more)
{
    const char *text = getenv("PLANTED");
    size_t length = strlen(name);
    if (text == NULL || strncmp(text, name, length) != 0 || text[length] != ' ')
        return 0;
    return sscanf(text + length, "%u %u", number, more) >= 1;
}

static uint32_t planted(const char *name, uint32_t number)
{
    uint32_t more;
    is_planted(name, &number, &more);
    return number;
}

/* Begins the wrapper of a call, whose own code is __real_NAME. */
#define WRAP(type, name, words) \
    type __real_##name words; \
    type __wrap_##name words; \
    type __wrap_##name words

WRAP(uint32_t, dfu_watch_before, (const struct dfu_watch *watch, const struct dfu_action *action, uint32_t by_another))
{
    return planted("dfu_watch_before", __real_dfu_watch_before(watch, action, by_another));
}

WRAP(uint32_t, dfu_watch_after, (struct dfu_watch * watch, const struct dfu_action *action, uint32_t seen, const struct dfu_facts *facts))
{
    return planted("dfu_watch_after", __real_dfu_watch_after(watch, action, seen, facts));
}

WRAP(uint32_t, dfuse_watch_after,
     (struct dfuse_watch * watch, const struct dfuse_session *session, const struct dfuse_action *action, uint32_t command, uint32_t seen,
      const struct dfu_facts *facts))
{
    return planted("dfuse_watch_after", __real_dfuse_watch_after(watch, session, action, command, seen, facts));
}

WRAP(int32_t, dfu_host_next, (const struct dfu_session *session, const uint8_t *payload, size_t length, struct dfu_action *action))
{
    int32_t answer = __real_dfu_host_next(session, payload, length, action);
    if (answer == 0 && action->what == DFU_DONE)
        is_planted("dfu_host_next", &action->value, &action->code);
    return answer;
}

WRAP(int32_t, dfuse_next,
     (const struct dfuse_session *session, const uint8_t *map, size_t map_length, const struct dfuse_element *image, size_t elements,
      uint8_t *body, size_t room, struct dfuse_action *action))
{
    int32_t answer = __real_dfuse_next(session, map, map_length, image, elements, body, room, action);
    if (answer == 0 && action->what == DFU_DONE)
        is_planted("dfuse_next", &action->value, &action->more);
    return answer;
}

WRAP(uint32_t, dfu_image_look, (const uint8_t *file, size_t length, const uint8_t *name, size_t name_length, struct dfu_look *look))
{
    uint32_t answer = __real_dfu_image_look(file, length, name, name_length, look);
    return is_planted("dfu_image_look", &look->looks, &look->named) ? look->looks : answer;
}

WRAP(int, device_choose, (struct device * device, const struct wanted *wanted))
{
    return (int)planted("device_choose", (uint32_t)__real_device_choose(device, wanted));
}
