/* SPDX-License-Identifier: MIT OR Apache-2.0 */
/* Reports each result of libusb to the host. The proof of what Installed and Verified mean depends on this file: a transfer that is
 * reported as acknowledged or answered was really made, and if the device lost its state, a restart is reported before any later answer.
 *
 * Results of a transfer:
 *
 *     all bytes of the body were sent    Ack         the transfer was made and acknowledged
 *     bytes in, any number or none       Bytes       the answer, unchanged
 *     LIBUSB_ERROR_PIPE                  Stall       the device refused the request
 *     LIBUSB_ERROR_NO_DEVICE             Left        the device left after the end of a download, as below
 *                                        Restarted   else: reported after the device is back and open again
 *     any other                          Nothing     such as TIMEOUT, IO or OVERFLOW; the host asks what the device did
 *
 * Results of a reset:
 *
 *     0                                  WasReset    after the interface is in its setting again, if that isn't setting 0
 *     LIBUSB_ERROR_NOT_FOUND             WasReset    at once: the device has other descriptors after the reset, and is
 *                                                    enumerated as a new device, which includes a reset
 *     LIBUSB_ERROR_NO_DEVICE             Left        the device left before the reset, after the end of a download, as below
 *                                        Restarted   else: reported after the device is back
 *     any other                          Nothing     the host requests the reset again
 *
 * If the system can't reset a device (properties.h), a person must pull the plug of a device in DFU mode, and WasReset is reported when the
 * device has left. Plugging it in again enumerates and so resets it. The device may lose power and its state: by the device table a reset
 * and a loss of power both lead to appIDLE from every state but appDETACH, and both keep the active image. From appDETACH a reset leads to
 * DFU mode and a loss of power doesn't, so in run-time mode nobody is asked to pull the plug. If nobody pulls it, the session ends and no
 * reset is reported.
 *
 * If the system doesn't report that a device left, the USB request GET_STATUS is sent after each failed transfer except TIMEOUT. Every
 * device answers it, and it changes no state. If it fails too, the device left.
 *
 * Linux also returns NOT_FOUND for a device that left before the reset. That device too is reset when it returns, and after a reset the
 * host is done or requests the device's state again, as after a restart. If the host sends another request, the program waits for the
 * device first. A device whose session is over need not return, for example if its application has no USB.
 *
 * Results of a wait: Waited when the time is over, or Nothing if a stop ended it (stop.h).
 *
 * Left is reported if the device acknowledged the DNLOAD without data, then answered a GETSTATUS with dfuMANIFEST-SYNC or dfuMANIFEST,
 * received nothing but GETSTATUS since, and is gone. It may have started its image by itself, as many bootloaders do, or have lost power.
 * Left is reported at once and only once, and the program waits for the device before the next request. The host treats it as the last
 * reset and never reports Installed after it. A reset that returns NOT_FOUND isn't reported as Left: Installed is reported after it only if
 * the device itself reported the end by dfuIDLE.
 *
 * A device that leaves after an acknowledged DETACH obeys the request, so this isn't a restart. Nothing is sent until it is found again. A
 * reset that another program makes in between isn't detected here, but the interface is claimed, so no other program can use it for
 * transfers.
 *
 * One DETACH is this program's own, and its result isn't reported to the host (stalls.c). The host's reset after it is reported as
 * above. If the device leaves by itself after that DETACH, WasReset is reported, and if it leaves without an answer, Restarted. The host
 * requests the device's state after either. */
#include "answer.h"
#include "clock.h"
#include "presence.h"
#include "properties.h"
#include "standard.h"
#include "transport.h"

#include <string.h>

#define TRANSFER_MS 5000 /* time until a transfer counts as lost, as in other DFU programs */
#define STOPPED_MS 1000  /* replaces TRANSFER_MS after a stop */

static struct answer reported(struct wire *wire, uint32_t seen)
{
    return (struct answer){seen, wire->bytes, 0, false, 0};
}

static void forget_end(struct wire *wire)
{
    wire->is_closed = wire->is_manifesting = false;
}

/* Reports a restart of a device that left, after it is found and opened again. */
static struct answer restarted(struct wire *wire)
{
    struct answer answer = reported(wire, DFU_SEEN_RESTART);
    forget_end(wire);
    answer.is_gone = !device_reopen(wire->device);
    return answer;
}

/* Reports that a device left by itself if it may have started its image; else reports its restart. */
static struct answer left(struct wire *wire)
{
    if (!wire->is_manifesting)
        return restarted(wire);
    forget_end(wire);
    device_close(wire->device);
    return reported(wire, DFU_SEEN_LEFT);
}

/* The host's setup packets have wIndex 0 (bytes 4 and 5), but USB requires the interface number there. No other byte is changed. */
static int transfer(struct wire *wire, const uint8_t setup[8], uint16_t length)
{
    uint16_t value = setup_value(setup);
    wire->transfers++;
    return transport->transfer(wire->device->handle, setup[0], setup[1], value, wire->device->info.interface, wire->bytes, length,
                               *wire->device->is_stop ? STOPPED_MS : TRANSFER_MS);
}

static struct answer answer_of(struct wire *wire, bool is_in, uint16_t length, int result)
{
    struct answer answer = reported(wire, DFU_SEEN_NOTHING);
    answer.error = result < 0 ? result : 0;
    if (result == LIBUSB_ERROR_NO_DEVICE || present_is_lost(wire->device, result))
        return left(wire);
    if (result == LIBUSB_ERROR_PIPE)
        answer.seen = DFU_SEEN_STALL;
    else if (is_in && result >= 0 && result <= length) {
        answer.seen = DFU_SEEN_BYTES;
        answer.count = (size_t)result;
    } else if (!is_in && result == length)
        answer.seen = DFU_SEEN_ACK;
    return answer;
}

/* Records the end of a download: the device acknowledged the download's closing request, and then reported dfuMANIFEST-SYNC or dfuMANIFEST.
 */
static void note_end(struct wire *wire, const struct dfu_action *action, const struct answer *answer)
{
    bool is_status = is_request(action->setup, KIND_IN, REQUEST_GETSTATUS);
    bool is_end = is_request(action->setup, KIND_OUT, REQUEST_DNLOAD) && action->length == 0;
    if (!is_status) {
        wire->is_closed = is_end && answer->seen == DFU_SEEN_ACK;
        wire->is_manifesting = false;
    } else if (answer->seen == DFU_SEEN_BYTES && answer->count == GETSTATUS_BYTES
               && (answer->bytes[GETSTATUS_STATE] == STATE_MANIFEST_SYNC || answer->bytes[GETSTATUS_STATE] == STATE_MANIFEST))
        wire->is_manifesting = wire->is_closed;
}

static struct answer send_to(struct wire *wire, const struct dfu_action *action, const uint8_t *body)
{
    bool is_in = (action->setup[0] & KIND_IS_IN) != 0;
    uint16_t length = setup_length(action->setup);
    struct answer answer;
    if (wire->device->handle == NULL && !device_reopen(wire->device)) {
        answer = reported(wire, DFU_SEEN_NOTHING);
        answer.is_gone = true;
        return answer;
    }
    if (!is_in)
        memcpy(wire->bytes, body, length);
    wire->is_leaving = false;
    log_device(&wire->trace.log, wire->device);
    answer = answer_of(wire, is_in, length, transfer(wire, action->setup, length));
    wire->is_leaving = answer.seen == DFU_SEEN_ACK && is_request(action->setup, KIND_OUT, REQUEST_DETACH);
    note_end(wire, action, &answer);
    return answer;
}

struct answer answer_send(struct wire *wire, const struct dfu_action *action, const uint8_t *body)
{
    int64_t began_ms = clock_ms();
    uint64_t before = wire->transfers;
    struct answer answer = send_to(wire, action, body);
    trace_request(&wire->trace, action->setup, &answer, clock_ms() - began_ms);
    if (wire->transfers != before)
        log_request(&wire->trace.log, action->setup, wire->device->info.interface, wire->bytes, &answer);
    return answer;
}

struct answer answer_wait(struct wire *wire, uint32_t ms)
{
    int64_t began_ms = clock_ms();
    struct answer answer = reported(wire, clock_wait(ms) ? DFU_SEEN_WAIT : DFU_SEEN_NOTHING);
    trace_wait(&wire->trace, ms, &answer, clock_ms() - began_ms);
    /* A device with bitWillDetach leaves the bus by itself. It is opened again before the next request. */
    if (wire->is_leaving && !present_is(wire->device))
        device_close(wire->device);
    return answer;
}

/* A reset puts an interface into setting 0, and libusb only tries to restore the previous setting. It is set again here, because blocks
 * that go to another setting overwrite the wrong memory. */
static int reset(struct device *device)
{
    int error = transport->reset(device->handle);
    return error == 0 && device->info.alternate != 0 ? device_set(device) : error;
}

/* Replaces a reset on a system that can't reset a device: a person pulls the plug instead. */
static struct answer pulled(struct wire *wire)
{
    if (!wire->device->info.is_upgrade || !present_is_pulled(wire->device)) {
        wire->is_unreset = !*wire->device->is_stop;
        return reported(wire, DFU_SEEN_NOTHING);
    }
    forget_end(wire);
    device_close(wire->device);
    return reported(wire, DFU_SEEN_RESET);
}

/* Returns true if the device left with the reset or may have other descriptors after it, so that it must be found again. */
static bool is_changed(const struct wire *wire, int error)
{
    return error == LIBUSB_ERROR_NOT_FOUND || error == LIBUSB_ERROR_NO_DEVICE
           || (error == 0 && !platform_tells_new() && !wire->device->info.is_upgrade);
}

static struct answer reset_reported(struct wire *wire)
{
    struct answer answer = reported(wire, DFU_SEEN_RESET);
    int error;
    if (wire->device->handle == NULL) /* the device left before this reset */
        return wire->is_leaving ? answer : restarted(wire);
    if (!platform_resets())
        return pulled(wire);
    error = reset(wire->device);
    answer.error = error;
    if (error == LIBUSB_ERROR_NO_DEVICE && !wire->is_leaving)
        return left(wire);
    if (is_changed(wire, error))
        device_close(wire->device);
    else if (error != 0)
        answer.seen = DFU_SEEN_NOTHING;
    if (answer.seen == DFU_SEEN_RESET)
        forget_end(wire);
    return answer;
}

struct answer answer_reset(struct wire *wire)
{
    int64_t began_ms = clock_ms();
    struct answer answer = reset_reported(wire);
    trace_reset(&wire->trace, &answer, clock_ms() - began_ms);
    if (answer.seen == DFU_SEEN_RESET && wire->device->handle != NULL)
        log_reset(&wire->trace.log);
    return answer;
}
