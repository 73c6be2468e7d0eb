/* A second class driver beside that of examples/tinyusb, as in a program that already defines these two callbacks. */
#include "dfu_tinyusb.h"

void tud_event_hook_cb(uint8_t rhport, uint32_t event, bool in_isr)
{
    (void)rhport;
    (void)in_isr;
    dfu_tinyusb_event(event);
}

static void other_init(void)
{
}

static bool other_deinit(void)
{
    return true;
}

static void other_reset(uint8_t rhport)
{
    (void)rhport;
}

static uint16_t other_open(uint8_t rhport, tusb_desc_interface_t const *interface, uint16_t most)
{
    (void)rhport;
    return interface->bInterfaceClass == TUSB_CLASS_VENDOR_SPECIFIC && most >= 9 ? 9 : 0;
}

/* Answers each class request for data with one byte, 55h. */
static bool other_control(uint8_t rhport, uint8_t stage, tusb_control_request_t const *request)
{
    static uint8_t answer = 0x55;
    if (stage != CONTROL_STAGE_SETUP)
        return true;
    return request->bmRequestType == 0xa1 && tud_control_xfer(rhport, request, &answer, 1);
}

usbd_class_driver_t const *usbd_app_driver_get_cb(uint8_t *count)
{
    static usbd_class_driver_t drivers[2] = {{.name = "other",
                                              .init = other_init,
                                              .deinit = other_deinit,
                                              .reset = other_reset,
                                              .open = other_open,
                                              .control_xfer_cb = other_control}};
    drivers[1] = dfu_tinyusb_driver;
    *count = 2;
    return drivers;
}
