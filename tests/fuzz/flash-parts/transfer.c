/* Carries out a transfer, or lets it fail at random. */
#include "usb.h"
#include "books.h"
#include "bus.h"
#include "check.h"
#include "clock.h"
#include "random.h"
#include "temper.h"

#include <string.h>

#define STRING 3
#define FUNCTIONAL 0x21
#define LOST_ERRORS 4

static const int lost_errors[LOST_ERRORS] = {LIBUSB_ERROR_TIMEOUT, LIBUSB_ERROR_IO, LIBUSB_ERROR_OVERFLOW, LIBUSB_ERROR_OTHER};

/* Fails a transfer that libusb can't finish. A timeout takes its full time. */
static int lose(unsigned timeout)
{
    int error = lost_errors[below(LOST_ERRORS)];
    clock_pass(error == LIBUSB_ERROR_TIMEOUT ? timeout : 1);
    return error;
}

static int handled(struct libusb_device_handle *handle, const uint8_t setup[8], uint8_t *data, uint16_t length)
{
    static uint8_t answer[65536];
    struct board *board = handle->device->board;
    int count = model_handle(&board->model, setup, data, answer);
    if (count == STALL)
        return LIBUSB_ERROR_PIPE;
    if ((setup[0] & 0x80) == 0)
        return length;
    memcpy(data, answer, (size_t)count);
    return count;
}

/* Makes up an answer: a status of a device, random bytes, or an error. */
static int lie(const uint8_t setup[8], uint8_t *data, uint16_t length, unsigned timeout)
{
    static const uint32_t polls[] = {0, 0, 1, 10, 1000, 70000, 0xffffff};
    uint32_t poll = polls[below(sizeof polls / sizeof polls[0])];
    const uint8_t status[6] = {(uint8_t)(chance(3) ? below(18) : 0), (uint8_t)poll, (uint8_t)(poll >> 8), (uint8_t)(poll >> 16),
                               (uint8_t)below(12), (uint8_t)below(2)};
    if (chance(3))
        return LIBUSB_ERROR_PIPE;
    if (chance(5))
        return lose(timeout);
    if ((setup[0] & 0x80) == 0)
        return chance(8) && length > 0 ? (int)below(length) : length;
    if (setup[1] == 3 && length >= 6 && !chance(4)) {
        memcpy(data, status, sizeof status);
        return 6;
    }
    if (setup[1] == 5 && length >= 1 && !chance(4)) {
        data[0] = (uint8_t)below(12);
        return 1;
    }
    return chance(2) ? length : (int)below(length + 1u);
}

/* Cuts power before or after the device handles the transfer. */
static int leave(struct libusb_device_handle *handle, const uint8_t setup[8], uint8_t *data, uint16_t length)
{
    struct board *board = handle->device->board;
    if (chance(2))
        handled(handle, setup, data, length);
    model_power(&board->model);
    bus_leave(board);
    return LIBUSB_ERROR_NO_DEVICE;
}

int class_transfer(struct libusb_device_handle *handle, const uint8_t setup[8], uint8_t *data, uint16_t length, unsigned timeout)
{
    struct board *board = handle->device->board;
    int result;
    outcome->transfers++;
    if (chance(temper.lies))
        return lie(setup, data, length, timeout);
    if (chance(temper.leaves))
        return leave(handle, setup, data, length);
    if (chance(temper.lost)) {
        if (chance(2))
            handled(handle, setup, data, length);
        bus_look(board);
        return lose(timeout);
    }
    if (chance(temper.doubled))
        handled(handle, setup, data, length);
    result = handled(handle, setup, data, length);
    board->was_stalled = result == LIBUSB_ERROR_PIPE && handle->device->mode == RUN_TIME;
    if (!board->was_stalled)
        board->stalled_resets = 0;
    bus_look(board);
    return result;
}

static int take_text(const struct text *text, uint8_t *data, uint16_t length)
{
    uint8_t bytes[2 + 2 * MOST_UNITS] = {(uint8_t)(2 + 2 * text->count), STRING};
    int count = bytes[0];
    for (unsigned at = 0; at < text->count; at++) {
        bytes[2 + 2 * at] = (uint8_t)text->units[at];
        bytes[3 + 2 * at] = (uint8_t)(text->units[at] >> 8);
    }
    count = length < count ? length : count;
    memcpy(data, bytes, (size_t)count);
    return count;
}

int standard_transfer(const struct libusb_device *device, uint8_t request, uint16_t value, uint8_t *data, uint16_t length)
{
    static const uint8_t languages[4] = {4, STRING, 9, 4};
    uint8_t kind = (uint8_t)(value >> 8), number = (uint8_t)value;
    int error = call_fails(), count = length < 4 ? length : 4;
    (void)request;
    if (error != 0)
        return error;
    if (chance(temper.lies))
        return chance(2) ? length : (int)below(length + 1u);
    if (kind == FUNCTIONAL && device->face.asked.length > 0) {
        count = length < device->face.asked.length ? length : device->face.asked.length;
        memcpy(data, device->face.asked.bytes, (size_t)count);
        return count;
    }
    if (kind != STRING || number >= MOST_TEXTS)
        return LIBUSB_ERROR_PIPE;
    if (number > 0)
        return take_text(&device->face.texts[number], data, length);
    memcpy(data, languages, (size_t)count);
    return count;
}
