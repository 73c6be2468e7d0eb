/* Implements a USB stack whose requests are the contents of its memory, and the jumper of a board. */
#include <stdint.h>

int usb_dfu_has_body(const uint8_t setup[8]);
int32_t usb_dfu_request(const uint8_t setup[8]);
void usb_dfu_answered(void), usb_dfu_reset(void), usb_start(void), usb_stop(void), usb_poll(void);
int board_asks_for_format(void);
extern uint8_t usb_dfu_interface[18], *const usb_dfu_data;
volatile uint8_t port[8];

void usb_start(void) {
    port[0] = usb_dfu_interface[0];
}

void usb_stop(void) {}

int board_asks_for_format(void) {
    return port[2];
}

void usb_poll(void) {
    uint8_t setup[8];
    for (int i = 0; i < 8; i++)
        setup[i] = port[i];
    if (usb_dfu_has_body(setup))
        usb_dfu_data[0] = port[0];
    if (usb_dfu_request(setup) > 0)
        port[0] = usb_dfu_data[0];
    usb_dfu_answered();
    if (port[1])
        usb_dfu_reset();
}
