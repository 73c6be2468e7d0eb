/* Calls of libusb for an open device. */
#include "usb.h"
#include "books.h"
#include "bus.h"
#include "check.h"
#include "clock.h"
#include "random.h"
#include "temper.h"

int libusb_open(libusb_device *device, libusb_device_handle **out)
{
    int error;
    call_begins("libusb_open");
    error = call_fails();
    if (error != 0)
        return error;
    if (device->board->is_denied)
        return LIBUSB_ERROR_ACCESS;
    if (!device->is_listed)
        return LIBUSB_ERROR_NO_DEVICE;
    *out = take(sizeof **out);
    (*out)->device = device;
    device->handles++;
    books.handles++;
    return 0;
}

void libusb_close(libusb_device_handle *handle)
{
    libusb_device *device;
    if (handle == NULL)
        return;
    call_begins("libusb_close");
    device = handle->device;
    for (int interface = 0; interface < 256; interface++)
        if (handle->claimed[interface])
            fault("a handle is closed whose interface %d is claimed still", interface);
    device->handles--;
    books.handles--;
    if (device->references == 0 && device->handles == 0 && !device->is_listed)
        give(device);
    give(handle);
}

libusb_device *libusb_get_device(libusb_device_handle *handle)
{
    return handle->device;
}

bool handle_is_there(const struct libusb_device_handle *handle)
{
    return handle->device->is_listed && !handle->is_lost;
}

int libusb_claim_interface(libusb_device_handle *handle, int interface)
{
    int error;
    call_begins("libusb_claim_interface");
    error = call_fails();
    if (interface < 0 || interface > 255)
        return LIBUSB_ERROR_INVALID_PARAM;
    if (error == 0 && !handle_is_there(handle))
        error = LIBUSB_ERROR_NO_DEVICE;
    if (error == 0 && handle->device->board->is_in_use)
        error = LIBUSB_ERROR_BUSY;
    if (error != 0)
        return error;
    if (!handle->claimed[interface])
        books.claims++;
    handle->claimed[interface] = true;
    return 0;
}

int libusb_release_interface(libusb_device_handle *handle, int interface)
{
    call_begins("libusb_release_interface");
    if (interface < 0 || interface > 255)
        return LIBUSB_ERROR_INVALID_PARAM;
    if (!handle->claimed[interface])
        return LIBUSB_ERROR_NOT_FOUND;
    handle->claimed[interface] = false;
    books.claims--;
    return handle_is_there(handle) ? call_fails() : LIBUSB_ERROR_NO_DEVICE;
}

int libusb_set_interface_alt_setting(libusb_device_handle *handle, int interface, int alternate)
{
    struct board *board = handle->device->board;
    int error;
    call_begins("libusb_set_interface_alt_setting");
    if (interface < 0 || interface > 255 || alternate < 0 || alternate > 255)
        return LIBUSB_ERROR_INVALID_PARAM;
    if (!handle->claimed[interface])
        fault("a setting is chosen of interface %d, which isn't claimed", interface);
    error = call_fails();
    if (error == 0 && !handle_is_there(handle))
        error = LIBUSB_ERROR_NO_DEVICE;
    if (error == 0 && face_setting(&handle->device->face, interface, alternate) == NULL)
        error = LIBUSB_ERROR_NOT_FOUND;
    /* USB 2.0 allows a device with only the default setting to stall SET_INTERFACE. */
    if (error == 0 && alternate == 0 && chance(10))
        error = LIBUSB_ERROR_PIPE;
    if (error != 0)
        return error;
    trace("interface %d is put into setting %d", interface, alternate);
    handle->alternates[interface] = (uint8_t)alternate;
    if (handle->device->mode == UPGRADE)
        board->model.setting = (unsigned)alternate % MOST_SETTINGS;
    return 0;
}

/* Resets the device: it returns to setting 0, and may be enumerated as another device. */
static int reset(struct libusb_device_handle *handle)
{
    struct board *board = handle->device->board;
    enum mode before = board->mode;
    check_reset(handle);
    for (int interface = 0; interface < 256; interface++)
        handle->alternates[interface] = 0;
    model_reset(&board->model);
    bus_look(board);
    if (board->mode == before && handle_is_there(handle))
        return 0;
    handle->is_lost = true;
    return LIBUSB_ERROR_NOT_FOUND;
}

int libusb_reset_device(libusb_device_handle *handle)
{
    enum mode before;
    int error, result;
    call_begins("libusb_reset_device");
    error = call_fails();
    if (!handle_is_there(handle))
        return LIBUSB_ERROR_NO_DEVICE;
    if (handle->device->board->is_dead)
        return LIBUSB_ERROR_IO;
    if (error != 0 && chance(2))
        return error;
    before = handle->device->mode;
    result = reset(handle);
    if (before == RUN_TIME && error == 0)
        check_stalled(handle->device->board);
    clock_pass(10);
    trace("a reset: %d", result);
    /* An error may be returned even if the reset was carried out and the device is still the same. In a run that isn't fair, 0 may be
     * returned although the device is another one. */
    return result == 0 ? error : !temper.is_fair && chance(20) ? 0 : result;
}

/* Writes, if the device sends, and then reads `length` bytes of the buffer, so that the sanitizer detects a buffer that is too small. */
static void touch(uint8_t type, unsigned char *data, uint16_t length)
{
    static volatile unsigned char last;
    if ((type & 0x80) != 0)
        any_bytes(data, length);
    for (unsigned at = 0; at < length; at++)
        last = data[at];
    (void)last;
}

int libusb_control_transfer(libusb_device_handle *handle, uint8_t type, uint8_t request, uint16_t value, uint16_t index,
                            unsigned char *data, uint16_t length, unsigned timeout)
{
    const uint8_t setup[8] = {type, request, (uint8_t)value, (uint8_t)(value >> 8), 0, 0, (uint8_t)length, (uint8_t)(length >> 8)};
    int result;
    if (timeout == 0)
        fault("a transfer is waited for without end");
    touch(type, data, length);
    call_begins("libusb_control_transfer");
    if ((type & 0x60) == 0x20)
        check_request(handle, setup, index);
    else if (type != 0x80 || request != LIBUSB_REQUEST_GET_DESCRIPTOR)
        fault("the request %02x of type %02x is none of DFU, and asks for no descriptor", request, type);
    if (!handle_is_there(handle))
        return LIBUSB_ERROR_NO_DEVICE;
    if (handle->device->board->is_dead) {
        clock_pass(timeout);
        return LIBUSB_ERROR_TIMEOUT;
    }
    result = (type & 0x60) == 0 ? standard_transfer(handle->device, request, value, data, length)
                                : class_transfer(handle, setup, data, length, timeout);
    if ((type & 0x60) != 0)
        trace("%02x %u %u %u: %d, the device is in state %d", type, request, value, length, result, handle->device->board->model.state);
    return result;
}
