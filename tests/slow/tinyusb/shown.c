/* Runs the loop at the top of examples/tinyusb/dfu_tinyusb.h over Linux's raw-gadget, with the functions that the loop leaves to the
 * program: `shown FLASH`. Its image is the program `application`; with DFU_MODE it stays in the bootloader. */
#define _GNU_SOURCE
#include "board.h"
#include "dfu_tinyusb.h"
#include <stdlib.h>
#include <unistd.h>

static const char *path;
static bool begin(uint8_t port);
int shown_main(void);

#define main shown_main
#define dfu device
#define tud_init begin
#include "shown_loop.h"
#undef main

uint8_t board_protocol(void)
{
    return dfu_tinyusb_protocol();
}

static bool begin(uint8_t port)
{
    (void)port;
    board_begin();
    return true;
}

bool is_asked(void)
{
    return getenv("DFU_MODE") != NULL;
}

void start_image(void)
{
    struct dfu_place place;
    if (dfu_device_image(&device, &place) == 0 && place.length > 0)
        board_become("./application", path);
}

void restart(void)
{
    unsetenv("DFU_MODE");
    board_become("./shown", path);
}

void wait_ms(uint32_t ms)
{
    usleep(ms * 1000);
}

uint32_t milliseconds(void)
{
    board_wait();
    return now_ms();
}

int main(int count, char **words)
{
    if (count < 2 || !flash_open(path = words[1]))
        return 2;
    board_set_up();
    return shown_main();
}
