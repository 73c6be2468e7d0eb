/* SPDX-License-Identifier: MIT OR Apache-2.0 */
#include "dfu_tinyusb_runtime.h"
#include "dfu_tinyusb_parts.h"

static struct dfu_runtime *dfu;
static uint8_t out[6];

static void reset(uint8_t rhport)
{
    (void)rhport;
    if (counts() && dfu_runtime_usb_reset(dfu))
        leaves = true;
}

static uint16_t open_interface(uint8_t rhport, tusb_desc_interface_t const *interface, uint16_t most)
{
    (void)rhport;
    return dfu == NULL ? 0 : open_number(interface, most, dfu->interface_number);
}

/* No request with a data stage of the host is accepted: each is stalled before that stage. */
static bool control(uint8_t rhport, uint8_t stage, tusb_control_request_t const *request)
{
    uint8_t setup[8];
    int32_t n;
    if (!is_ours(request))
        return false;
    if (stage == CONTROL_STAGE_ACK)
        ahead_ms = 0;
    if (stage != CONTROL_STAGE_SETUP)
        return true;
    memcpy(setup, request, sizeof setup);
    n = dfu_runtime_handle(dfu, setup, out);
    if (n >= 0 && request->bRequest == DFU_DETACH)
        detach();
    return n >= 0 && dfu_tinyusb_answer(rhport, request, out, (uint16_t)n);
}

usbd_class_driver_t const dfu_tinyusb_driver = {
    .name = "DFU", .init = init, .deinit = deinit, .reset = reset, .open = open_interface, .control_xfer_cb = control};

void dfu_tinyusb_runtime_start(struct dfu_runtime *runtime)
{
    dfu = runtime;
}

void dfu_tinyusb_task(uint32_t now_ms)
{
    const uint32_t ms = passed(now_ms, dfu != NULL && dfu->state == DFU_STATE_APP_DETACH);
    if (ms > 0 && dfu_runtime_elapse(dfu, ms))
        leaves = true;
}
