/* SPDX-License-Identifier: MIT OR Apache-2.0 */
#include "driver.h"
#include "messages.h"
#include "stop.h"

#include <errno.h>
#include <stdint.h>
#include <stdio.h>
#include <string.h>

/* Restores the old bytes after a failed write. Linux keeps the new bytes in memory, because other programs have them mapped, so the old
 * bytes are written again for these programs. The disk may have the old or the new bytes, as after a power cut. Returns true if the mapping
 * has the old bytes. */
static bool put_back(const struct medium *medium, uint32_t at, const uint8_t *before, uint32_t length)
{
    (void)medium_write(medium, at, before, length);
    return memcmp(medium->bytes + at, before, length) == 0;
}

/* Writes the bytes once. Returns 0 if they are on the disk. After a failed write, drops them from memory or restores the old bytes; if
 * neither is possible, ends the program. */
static int write_once(const struct medium *medium, uint32_t at, const uint8_t *bytes, uint32_t length)
{
    uint8_t before[MEDIUM_MAX_WRITE];
    bool is_sound = length <= MEDIUM_MAX_WRITE && at <= medium->size && length <= medium->size - at;
    errno = EINVAL;
    if (is_sound)
        memcpy(before, medium->bytes + at, length);
    if (is_sound && medium_write(medium, at, bytes, length))
        return 0;
    say_failed(medium->name, "was not written");
    if (is_sound && !medium_forget(medium, at, length) && !(medium->is_shared && put_back(medium, at, before, length))) {
        fflush(NULL);
        stop_lost();
    }
    return 1;
}

static int program(void *own, uint32_t at, const uint8_t *bytes, uint32_t length)
{
    return write_once(own, at, bytes, length);
}

/* The library erases only if images run on trial. Else the medium is overwritten in place. */
static int erase(void *own, uint32_t at, uint32_t length)
{
    uint8_t bytes[MEDIUM_TRIAL_SECTOR];
    memset(bytes, 0xff, sizeof bytes);
    while (length > 0) {
        uint32_t some = length < sizeof bytes ? length : (uint32_t)sizeof bytes;
        if (write_once(own, at, bytes, some) != 0)
            return 1;
        at += some;
        length -= some;
    }
    return 0;
}

struct dfu_driver driver_of(const struct medium *medium)
{
    return (struct dfu_driver){.own = (void *)(uintptr_t)medium, .erase = erase, .program = program};
}
