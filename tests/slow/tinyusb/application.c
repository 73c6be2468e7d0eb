/* An application with the run-time driver of examples/tinyusb over Linux's raw-gadget: `application FLASH`. After a host has sent it to DFU
 * mode, the program that BOOTLOADER in the environment names replaces it, or else `board`, which begins in dfuIDLE. */
#define _GNU_SOURCE
#include "board.h"
#include "dfu_tinyusb_runtime.h"
#include <stdlib.h>

uint8_t board_protocol(void)
{
    return 1;
}

int main(int count, char **words)
{
    static struct dfu_runtime runtime;
    if (count < 2)
        return 2;
    board_set_up();
    runtime.detach_ms = config.detach_ms;
    runtime.interface_number = config.interface_number;
    runtime.attributes = config.attributes;
    dfu_tinyusb_runtime_start(&runtime);
    board_begin();
    for (;;) {
        tud_task();
        dfu_tinyusb_task(now_ms());
        if (dfu_tinyusb_leaves()) {
            tud_disconnect();
            setenv("DFU_MODE", "1", 1);
            board_become(getenv("BOOTLOADER") != NULL ? getenv("BOOTLOADER") : "./board", words[1]);
        }
        board_wait();
    }
}
