/* SPDX-License-Identifier: MIT OR Apache-2.0 */
#include "dfu_tinyusb.h"
#include "dfu_tinyusb_parts.h"
#ifdef DFU_TINYUSB_HOME
#include "dfu_home.h"
#endif

static struct dfu_device *dfu;
static int32_t refusal;
/* is_awaited: a data stage of the host is expected. is_refused: the device has refused a call, and the host has not received the stall for
 * that yet. is_upgrade: the device was in DFU mode after the last call that was not refused. */
static bool is_awaited, is_refused, is_upgrade;
static uint8_t data[DFU_TINYUSB_TRANSFER < 6 ? 6 : DFU_TINYUSB_TRANSFER]; /* data stage of the host or of the device */

static int32_t state(void)
{
    return dfu == NULL ? DFU_NO_DEVICE : dfu_device_state(dfu);
}

/* Handles the result `n` of a call of the device library. After a refusal the device begins again, once, in the mode in which it was, and
 * one request is stalled. Without that stall a host whose image did not become active would find the device in dfuIDLE, as after a success.
 */
static int32_t noted(int32_t n)
{
    if (n < DFU_STALL) {
        const int32_t begun = is_upgrade ? dfu_device_begin(dfu) : dfu_device_power_on(dfu);
        refusal = begun < 0 ? begun : n;
        is_refused = true;
    } else {
        is_upgrade = dfu_tinyusb_protocol() == 2;
    }
    return n;
}

static void reset(uint8_t rhport)
{
    (void)rhport;
    is_awaited = false;
    if (!counts())
        return;
    is_upgrade = false; /* a reset leads to run-time mode, even if it is refused */
    (void)noted(dfu_device_reset(dfu));
}

static uint16_t open_interface(uint8_t rhport, tusb_desc_interface_t const *interface, uint16_t most)
{
    (void)rhport;
    return dfu == NULL ? 0 : open_number(interface, most, dfu->config->interface_number);
}

/* Handles a setup for which the host sends a data stage. A request that will be stalled is stalled before that stage; any other is served
 * after the whole data stage. TinyUSB does not report the received length: if a data stage ends early, the rest must read 0 instead of the
 * bytes of an earlier one. */
static bool await(uint8_t rhport, tusb_control_request_t const *request, const uint8_t setup[8])
{
    int32_t stalls = 1;
    if (noted(dfu_device_work(dfu)) < 0)
        return false;
    if (request->wLength <= dfu->config->transfer)
        stalls = noted(dfu_device_would_stall(dfu, setup));
    if (stalls > 0)
        (void)noted(dfu_device_serve(dfu, setup, data, data, sizeof data));
    if (stalls != 0)
        return false;
    memset(data, 0, request->wLength);
    is_awaited = tud_control_xfer(rhport, request, data, request->wLength);
    return is_awaited;
}

/* Returns true if a setup may be served. A program that runs from the first slot of two areas (DFU_TINYUSB_HOME) stalls a download that
 * would overwrite it; such a setup changes nothing. */
static bool may_come(const uint8_t setup[8])
{
#ifdef DFU_TINYUSB_HOME
    const int32_t n = dfu_home_transfer(dfu, setup);
    return n != DFU_NOT_HOME && noted(n) == 0;
#else
    (void)setup;
    return true;
#endif
}

static bool begin(uint8_t rhport, tusb_control_request_t const *request, const uint8_t setup[8])
{
    int32_t n;
    if (request->bmRequestType_bit.direction == TUSB_DIR_OUT && request->wLength > 0)
        return await(rhport, request, setup);
    n = noted(dfu_device_serve(dfu, setup, data, data, sizeof data));
    if (n >= 0 && request->bRequest == DFU_DETACH)
        detach();
    return n >= 0 && dfu_tinyusb_answer(rhport, request, data, (uint16_t)n);
}

static bool control(uint8_t rhport, uint8_t stage, tusb_control_request_t const *request)
{
    const bool was_awaited = is_awaited;
    bool is_taken = true;
    uint8_t setup[8];
    if (!is_ours(request))
        return false;
    memcpy(setup, request, sizeof setup);
    switch (stage) {
    case CONTROL_STAGE_SETUP:
        is_awaited = false;
        is_taken = !is_refused && may_come(setup) && begin(rhport, request, setup);
        break;
    case CONTROL_STAGE_DATA:
        is_awaited = false;
        if (request->bmRequestType_bit.direction == TUSB_DIR_OUT)
            is_taken = was_awaited && !is_refused && noted(dfu_device_serve(dfu, setup, data, data, sizeof data)) >= 0;
        break;
    case CONTROL_STAGE_ACK:
        ahead_ms = 0;
        (void)noted(dfu_device_work(dfu));
        break;
    default: return false;
    }
    if (!is_taken)
        is_refused = false; /* returning false stalls the request */
    return is_taken;
}

usbd_class_driver_t const dfu_tinyusb_driver = {
    .name = "DFU", .init = init, .deinit = deinit, .reset = reset, .open = open_interface, .control_xfer_cb = control};

int32_t dfu_tinyusb_start(struct dfu_device *device)
{
    if (device->driver == NULL || dfu_device_state(device) < 0)
        return DFU_NO_DEVICE;
    if (device->config->transfer > DFU_TINYUSB_TRANSFER)
        return DFU_NO_ROOM;
    dfu = device;
    refusal = 0;
    is_upgrade = dfu_tinyusb_protocol() == 2;
    return 0;
}

/* When a device with bitWillDetach leaves the bus and returns, the bus reset that follows does not count. */
void dfu_tinyusb_task(uint32_t now_ms)
{
    const uint32_t ms = passed(now_ms, !is_refused && state() == DFU_STATE_APP_DETACH);
    if (ms == 0)
        return;
    (void)noted(dfu_device_elapse(dfu, ms));
    if (state() == DFU_STATE_IDLE) {
        is_configured = false;
        leaves = true;
    }
}

uint8_t dfu_tinyusb_protocol(void)
{
    return state() == DFU_STATE_APP_IDLE || state() == DFU_STATE_APP_DETACH ? 1 : 2;
}

int32_t dfu_tinyusb_refusal(void)
{
    return refusal;
}
