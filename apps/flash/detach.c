/* SPDX-License-Identifier: MIT OR Apache-2.0 */
/* Sends this program's own DETACH (USB DFU 1.1, section 5.1), which the host doesn't request. The host requests the state first, and sends
 * DETACH only after the device reported appIDLE. Many devices, however, stall GETSTATUS in run-time mode, and accept only DETACH there. */
#include "detach.h"
#include "clock.h"
#include "properties.h"
#include "standard.h"

#define NO_DESCRIPTOR_MS 1000 /* wDetachTimeOut for a device without a functional descriptor */
#define ARRIVAL_MS 5000       /* time for a device to leave run-time mode, which it may do a while after the reset */
#define LOOK_MS 200

/* Returns the wDetachTimeOut of the device in milliseconds, or NO_DESCRIPTOR_MS if it has no functional descriptor. */
static uint16_t time_of(const struct found *info)
{
    return info->descriptor_size < FUNCTIONAL_BYTES_1_0 ? NO_DESCRIPTOR_MS : two_bytes(info->descriptor + AT_DETACH_MS);
}

/* Returns true if the device detaches by itself within wDetachTimeOut (bitWillDetach). */
static bool leaves_by_itself(const struct found *info)
{
    return has_attribute(info->descriptor, info->descriptor_size, WILL_DETACH);
}

struct answer detach_send(struct wire *wire)
{
    uint16_t ms = time_of(&wire->device->info);
    bool leaves = leaves_by_itself(&wire->device->info);
    const struct dfu_action action = {.what = DFU_SEND, .setup = {KIND_OUT, REQUEST_DETACH, (uint8_t)ms, (uint8_t)(ms >> 8)}};
    struct answer answer;
    wire->trace.is_own = true;
    answer = answer_send(wire, &action, wire->bytes);
    if (answer.seen == DFU_SEEN_ACK && leaves)
        answer_wait(wire, ms > 0 ? ms : 1);
    wire->trace.is_own = false;
    return answer;
}

bool detach_await(struct wire *wire)
{
    const struct device *device = wire->device;
    int64_t end = clock_ms() + ARRIVAL_MS;
    while (device_reopen(wire->device)) {
        if (device->info.is_upgrade || *device->is_stop || clock_ms() >= end)
            return device->info.is_upgrade;
        clock_wait(LOOK_MS);
    }
    return false;
}

bool detach(struct wire *wire)
{
    struct answer answer = detach_send(wire);
    if (answer.is_gone || answer.seen == DFU_SEEN_STALL)
        return false;
    wire->trace.is_own = true;
    /* On a system that can't reset a device, the device may still leave by itself. */
    if (!wire->device->info.is_upgrade && platform_resets())
        answer_reset(wire);
    wire->trace.is_own = false;
    return detach_await(wire);
}
