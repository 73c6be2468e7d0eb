/* The proved device of crates/dfu_device_c, with its flash in memory. */
#include "bus.h"
#include "model.h"
#include "settings.h"

#include "dfu_device_memory.h"

#include <stdlib.h>
#include <string.h>

static struct dfu_config config;
static uint8_t pending[DFU_BLOCK_SIZE(4096, 256)], *medium;
static struct dfu_driver driver = {.erase = dfu_memory_erase, .program = dfu_memory_program};
static struct dfu_device device = {.config = &config, .block = pending, .most = sizeof pending, .driver = &driver};

static void must(int32_t answer, const char *what)
{
    if (answer < 0)
        fail_loudly("the proved device: %s answers %d", what, (int)answer);
}

/* Restores power. After a swap the interface may have another number. */
static void power(void)
{
    config.interface_number = bus_interface();
    memset(&device.record, 0, sizeof device.record);
    must(dfu_device_power_on(&device), "power_on");
}

static void configure(void)
{
    config.version = DFU_VERSION;
    config.unit = 1;
    config.device = settings.dfu.release;
    config.product = settings.dfu.product;
    config.vendor = settings.dfu.vendor;
    config.detach_ms = settings.detach_ms;
    config.transfer = settings.transfer;
    config.attributes = settings.attributes;
    config.busy_ms = settings.busy_ms;
    config.manifest_ms = settings.manifest_ms;
    config.least = settings.least;
}

static int handle(const uint8_t setup[8], const uint8_t *body, size_t length, uint8_t *out, size_t room)
{
    static uint8_t answer[4096 + 8];
    int32_t count = dfu_device_settle(&device, dfu_device_handle(&device, setup, body, answer, sizeof answer), answer, sizeof answer);
    (void)length;
    if (count == DFU_STALL)
        return STALLED;
    must(count, "handle");
    if ((size_t)count > room)
        fail_loudly("the proved device answers %d bytes where %zu were asked for", (int)count, room);
    memcpy(out, answer, (size_t)count);
    return count;
}

static void usb_reset(void)
{
    must(dfu_device_usb_reset(&device), "usb_reset");
}

static void elapse(uint32_t ms)
{
    uint8_t none[6];
    must(dfu_device_settle(&device, dfu_device_elapse(&device, ms), none, sizeof none), "elapse");
}

static void make(void)
{
    struct part image = read_image(settings.image);
    configure();
    device.size = DFU_MEDIUM_SIZE(1, 0, (size_t)settings.capacity);
    device.flash = driver.own = medium = calloc(1, device.size);
    if (medium == NULL)
        fail_loudly("no memory for a medium of %zu bytes", device.size);
    must(dfu_device_format(&device, image.at, image.size), "format");
    power();
    if (!settings.starts_in_app)
        must(dfu_device_begin(&device), "begin");
}

static void set_interface(void)
{
}

static bool is_there(void)
{
    return true;
}

static int state(void)
{
    return dfu_device_state(&device);
}

static int code(void)
{
    return dfu_device_code(&device);
}

static bool is_app(void)
{
    return state() <= 1;
}

static struct part image(void)
{
    struct dfu_place place;
    must(dfu_device_image(&device, &place), "image");
    return (struct part){medium + place.at, place.length};
}

static struct part keeps(unsigned number)
{
    const struct part parts[] = {{&device.record, sizeof device.record}, {medium, device.size}, {NULL, 0}};
    return parts[number];
}

const struct model proved_model = {
    .make = make,
    .power = power,
    .handle = handle,
    .elapse = elapse,
    .usb_reset = usb_reset,
    .set_interface = set_interface,
    .is_there = is_there,
    .is_app = is_app,
    .state = state,
    .code = code,
    .image = image,
    .keeps = keeps,
};
