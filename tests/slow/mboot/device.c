/* MicroPython's bootloader mboot as a device on the stand-in's bus. Its code for USB, DfuSe, memory bounds and the layout of an STM32F4's
 * flash is unchanged: `run` extracts it from MicroPython's sources to mboot_flash.inc and mboot_usb.inc. This file defines what that code
 * calls: a flash of 1 MiB, at its own addresses from 08000000h, and a USB stack.
 *
 * It uses these settings of a DfuSe device (tests/lib/usb/settings.h): USB_IMAGE, whose length is also that of the saved flash, USB_CELLS,
 * USB_FAILS (an erase or a write of the flash), USB_LIES, and those of the bus. A cut restores every other byte that the previous transfer
 * changed. */
#define _GNU_SOURCE
#include "device.h"
#include "../../lib/usb/log.h"
#include "../../lib/usb/model.h"
#include "../../lib/usb/settings.h"

#include <string.h>
#include <sys/mman.h>

enum { SIZE = 1024 * 1024, GETSTATUS = 3, APPLICATION = 0x08008000 };

static struct {
    int commands;       /* number of erases and writes so far */
    uint32_t at, count; /* range that the last transfer changed */
    uint8_t before[131072]; /* bytes of that range before the transfer */
    size_t size;        /* bytes of flash to save */
} flash;

static uint8_t *cell(uint32_t address)
{
    return (uint8_t *)(uintptr_t)address;
}

/* Keeps the bytes that will be changed next. Returns true if this operation must fail. */
static bool changes(uint32_t at, uint32_t count)
{
    flash.at = at;
    flash.count = count;
    memcpy(flash.before, cell(at), count);
    return settings.fails == flash.commands++;
}

int flash_erase(uint32_t at)
{
    uint32_t start, size;
    if (flash_get_sector_info(at, &start, &size) < 0 || changes(start, size))
        return -1;
    memset(cell(start), 0xff, size);
    return 0;
}

/* Writes words. mboot rounds the length up to whole words, so the last word may contain up to three other bytes of mboot's buffer. */
int flash_write(uint32_t at, const uint32_t *words, uint32_t count)
{
    const uint8_t *bytes = (const uint8_t *)words;
    if (at + 4 * count > FLASH_BASE + SIZE || changes(at, 4 * count))
        return -1;
    for (uint32_t i = 0; i < 4 * count; i++) {
        uint8_t *byte = cell(at + i);
        if (settings.cells == 1 && *byte != 0xff && *byte != bytes[i])
            return -1;
        if (at + i != settings.lies)
            *byte = settings.cells == 0 ? *byte & bytes[i] : bytes[i];
    }
    return 0;
}

/* State of the USB stack: the bytes that mboot sends and their number, and whether mboot sent bytes, expects bytes, or refused the request.
 */
static struct {
    USBD_HandleTypeDef handle;
    const uint8_t *sent;
    int count;
    bool has_sent, is_brought, is_refused;
} usb;

void USBD_CtlSendData(USBD_HandleTypeDef *handle, uint8_t *bytes, int count)
{
    (void)handle;
    usb.sent = bytes;
    usb.count = count;
    usb.has_sent = true;
}

void USBD_CtlPrepareRx(USBD_HandleTypeDef *handle, uint8_t *bytes, int count)
{
    (void)handle;
    (void)bytes;
    (void)count;
    usb.is_brought = true;
}

void USBD_CtlError(USBD_HandleTypeDef *handle, USBD_SetupReqTypedef *request)
{
    (void)handle;
    (void)request;
    usb.is_refused = true;
}

void USBD_GetString(uint8_t *text, uint8_t *out, uint16_t *length)
{
    *length = (uint16_t)(2 + 2 * strlen((const char *)text));
    out[0] = (uint8_t)*length;
    out[1] = 3;
    for (int at = 2; at < *length; at += 2) {
        out[at] = text[at / 2 - 1];
        out[at + 1] = 0;
    }
}

#include "mboot_usb.inc"

static void start(void)
{
    memset(&pyb_usbdd, 0, sizeof pyb_usbdd);
    usb.handle.pClassData = &pyb_usbdd;
    dfu_init();
}

/* Checks that mboot's own descriptors equal those of the stand-in. */
static void check(void)
{
    uint16_t length;
    const uint8_t *name = pyb_usbdd_StrDescriptor(&usb.handle, USBD_IDX_CONFIG_STR, &length);
    const uint8_t *function = cfg_descr + 18;
    bool is_same = length == 2 + 2 * strlen(settings.maps);
    for (int at = 2; is_same && at < length; at += 2)
        is_same = name[at] == (uint8_t)settings.maps[at / 2 - 1];
    if (!is_same || function[2] != settings.attributes || (function[5] | function[6] << 8) != settings.said
        || (function[7] | function[8] << 8) != settings.version)
        fail_loudly("mboot's descriptors are others");
}

static void make(void)
{
    struct part image = read_image(settings.image);
    void *at = mmap(cell(FLASH_BASE), SIZE, PROT_READ | PROT_WRITE, MAP_PRIVATE | MAP_ANONYMOUS | MAP_FIXED_NOREPLACE, -1, 0);
    if (at != cell(FLASH_BASE))
        fail_loudly("there is no room at 08000000h");
    flash.size = image.size < SIZE ? image.size : SIZE;
    memcpy(at, image.at, flash.size);
    start();
    check();
}

static void power(void)
{
    for (uint32_t i = 0, changed = 0; i < flash.count; i++)
        if (*cell(flash.at + i) != flash.before[i] && changed++ % 2 != 0)
            *cell(flash.at + i) = flash.before[i];
    flash.count = 0;
    start();
}

static bool is_app(void)
{
    return dfu_context.leave_dfu;
}

static int handle(const uint8_t setup[8], const uint8_t *body, size_t length, uint8_t *out, size_t room)
{
    USBD_SetupReqTypedef request = {setup[0], setup[1], (uint16_t)(setup[2] | setup[3] << 8), (uint16_t)(setup[4] | setup[5] << 8),
                                    (uint16_t)(setup[6] | setup[7] << 8)};
    if (is_app())
        return STALLED;
    flash.count = 0;
    usb.has_sent = usb.is_brought = usb.is_refused = false;
    if (length > sizeof pyb_usbdd.rx_buf)
        fail_loudly("more than mboot has room for");
    pyb_usbdd_Setup(&usb.handle, &request);
    if (usb.is_refused)
        return STALLED;
    if (usb.is_brought) {
        memcpy(pyb_usbdd.rx_buf, body, length);
        pyb_usbdd_EP0_RxReady(&usb.handle);
        return 0;
    }
    if (!usb.has_sent && (setup[0] & 0x80) != 0)
        fail_loudly("a request that mboot doesn't answer: %u, %u, %u", setup[1], request.wValue, request.wLength);
    if (usb.has_sent) {
        memcpy(out, usb.sent, (size_t)usb.count < room ? (size_t)usb.count : room);
        pyb_usbdd_EP0_TxSent(&usb.handle);
        if (dfu_context.leave_dfu)
            log_started(APPLICATION);
    }
    return usb.has_sent ? usb.count : 0;
}

static bool is_there(void)
{
    return true;
}

/* Lets time pass. After that a cut no longer tears the bytes of the last erase or write. */
static void elapse(uint32_t ms)
{
    flash.count = ms > 0 ? 0 : flash.count;
}

static void usb_reset(void) {}
static void set_interface(void) {}
static int state(void) { return is_app() ? 0 : (int)dfu_context.state; }
static int code(void) { return (int)dfu_context.status; }
static struct part image(void) { return (struct part){cell(FLASH_BASE), flash.size}; }

static struct part keeps(unsigned number)
{
    const struct part parts[] = {image(), {NULL, 0}};
    return parts[number];
}

/* Returns the string that explains a refusal. */
const uint8_t *mboot_string(unsigned number, unsigned *length)
{
    uint16_t bytes = 0;
    const uint8_t *found = pyb_usbdd_StrDescriptor(&usb.handle, (uint8_t)number, &bytes);
    *length = bytes;
    return found;
}

const struct model mboot_model = {
    .make = make,
    .power = power,
    .handle = handle,
    .elapse = elapse,
    .usb_reset = usb_reset,
    .set_interface = set_interface,
    .is_there = is_there,
    .is_app = is_app,
    .state = state,
    .code = code,
    .image = image,
    .keeps = keeps,
    .string = mboot_string,
};
