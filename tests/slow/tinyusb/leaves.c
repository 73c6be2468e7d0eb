/* Tests when a device with bitWillDetach leaves the bus, over the bus of bus.h: after its DETACH was acknowledged, or 20 ms later if the
 * acknowledgement is not reported. The bus reset when it returns does not count. The output ends with `N passed, M failed`. */
#include "bus.h"
#include "board.h"
#include "dfu_tinyusb.h"
#include <stdio.h>
#include <string.h>

static unsigned passed, failed;

uint8_t board_protocol(void)
{
    return dfu_tinyusb_protocol();
}

static void check(const char *what, bool holds)
{
    if (holds) {
        passed++;
    } else {
        failed++;
        printf("row WRONG leaves: %s\n", what);
    }
}

static void detach(enum stop stop)
{
    static const uint8_t setup[8] = {0x21, DFU_DETACH, 0xe8, 3, 0, 0, 0, 0};
    check("it gets power", dfu_device_power_on(&device) == 0);
    check("it enumerates in run-time mode", bus_enumerate() && dfu_tinyusb_protocol() == 1);
    check("it takes a DETACH", bus_request(setup, NULL, NULL, stop) == (stop == TO_THE_END ? 0 : BUS_NOTHING));
    check("it is in appDETACH", dfu_device_state(&device) == DFU_STATE_APP_DETACH);
    bus_time(1);
    check("it does not leave before time has passed", !dfu_tinyusb_leaves());
}

static void come_back(void)
{
    check("it is in dfuIDLE", dfu_device_state(&device) == DFU_STATE_IDLE);
    bus_reset(true);
    check("it comes back in DFU mode", bus_enumerate() && dfu_tinyusb_protocol() == 2);
    bus_reset(false);
    check("the next reset counts", dfu_device_state(&device) == DFU_STATE_APP_IDLE);
}

int main(void)
{
    const tusb_rhport_init_t init = {.role = TUSB_ROLE_DEVICE, .speed = TUSB_SPEED_HIGH};
    board_set_up();
    check("it has an image", dfu_device_format(&device, flash, 0) == 0 && dfu_device_power_on(&device) == 0);
    check("it starts", dfu_tinyusb_start(&device) == 0 && tusb_rhport_init(0, &init));

    detach(TO_THE_END);
    bus_time(1);
    check("it leaves", dfu_tinyusb_leaves());
    check("it leaves once", !dfu_tinyusb_leaves());
    come_back();

    detach(BEFORE_STATUS);
    bus_time(19);
    check("it does not leave before it is acknowledged", !dfu_tinyusb_leaves());
    bus_time(2);
    check("it leaves 20 ms later", dfu_tinyusb_leaves());
    come_back();

    detach(BEFORE_STATUS);
    bus_reset(false);
    check("a reset leads to dfuIDLE too", dfu_device_state(&device) == DFU_STATE_IDLE);
    check("it need not leave then", !dfu_tinyusb_leaves());
    printf("%u passed, %u failed\n", passed, failed);
    return failed != 0;
}
