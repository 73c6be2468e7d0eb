/* A board with TinyUSB and examples/tinyusb over Linux's raw-gadget: `board FLASH [format IMAGE | image]`. FLASH is a file. The settings
 * are environment variables: those of board.h and raw_gadget.c, ERASE_MS, LOG (a file), DFU_MODE, to begin in dfuIDLE, and APPLICATION,
 * with which the program `application` is the application. Without it this program is its own application in run-time mode. */
#define _GNU_SOURCE
#include "board.h"
#include "dfu_tinyusb.h"
#include <errno.h>
#include <fcntl.h>
#include <stdio.h>
#include <stdlib.h>
#include <string.h>
#include <unistd.h>

uint8_t board_protocol(void)
{
    return dfu_tinyusb_protocol();
}

/* Logs the bus resets that the device gets, with the device's state before and after each: the program is linked with --wrap. */
int32_t __real_dfu_core_usb_reset(const struct dfu_config *, struct dfu_record *, uint8_t *, size_t, const uint8_t *, size_t);
int32_t __wrap_dfu_core_usb_reset(const struct dfu_config *, struct dfu_record *, uint8_t *, size_t, const uint8_t *, size_t);
int32_t __wrap_dfu_core_usb_reset(const struct dfu_config *c, struct dfu_record *r, uint8_t *b, size_t most, const uint8_t *f, size_t size)
{
    const int32_t before = dfu_core_state(r), n = __real_dfu_core_usb_reset(c, r, b, most, f, size);
    board_log("TOLD of a reset: state %d to %d", before, dfu_core_state(r));
    return n;
}

static int fail(const char *why)
{
    fprintf(stderr, "board: %s: %s\n", why, strerror(errno));
    return 1;
}

static int format(const char *path)
{
    static uint8_t image[CAPACITY + 1];
    const int in = open(path, O_RDONLY);
    const ssize_t length = in < 0 ? -1 : read(in, image, sizeof image);
    return length < 0 || dfu_device_format(&device, image, (size_t)length) != 0 ? fail(path) : 0;
}

static int print_image(void)
{
    struct dfu_place place;
    if (dfu_device_image(&device, &place) != 0)
        return fail("no image");
    return fwrite(flash + place.at, 1, place.length, stdout) != place.length;
}

static int32_t power_on(void)
{
    return getenv("DFU_MODE") != NULL ? dfu_device_begin(&device) : dfu_device_power_on(&device);
}

/* Runs the loop of the program once. */
static void turn(const char *path)
{
    static int32_t told;
    tud_task();
    dfu_tinyusb_task(now_ms());
    if (dfu_tinyusb_refusal() != told)
        board_log("REFUSED %d", told = dfu_tinyusb_refusal());
    if (dfu_tinyusb_leaves()) {
        tud_disconnect();
        usleep(100000);
        tud_connect();
    }
    if (getenv("APPLICATION") != NULL && dfu_device_state(&device) == DFU_STATE_APP_IDLE) {
        tud_disconnect();
        board_become("./application", path);
    }
    board_wait();
}

int main(int count, char **words)
{
    if (count < 2 || !flash_open(words[1]))
        return fail("no flash");
    board_set_up();
    if (count == 4 && strcmp(words[2], "format") == 0)
        return format(words[3]);
    if (count == 3 && strcmp(words[2], "image") == 0)
        return print_image();
    /* A flash that is not blank is never formatted. */
    if (power_on() == DFU_NO_MEDIUM && dfu_device_is_blank(&device) == 1)
        dfu_device_format(&device, flash, 0);
    if (power_on() != 0 || dfu_tinyusb_start(&device) != 0)
        return fail("no device");
    if (getenv("APPLICATION") != NULL && dfu_device_state(&device) == DFU_STATE_APP_IDLE)
        board_become("./application", words[1]);
    flash_erase_ms = setting("ERASE_MS", 10, 40);
    board_begin();
    for (;;)
        turn(words[1]);
}
