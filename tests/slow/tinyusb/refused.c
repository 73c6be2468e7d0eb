/* Tests the driver after the device refused a call because its record or the flash was changed, over the bus of bus.h. The host gets one
 * stall, and never a dfuIDLE that its download did not lead to. The device begins again in its mode, once for each refusal, and the next
 * host can download. The output ends with `N passed, M failed`. The program is linked with --wrap. */
#include "bus.h"
#include "board.h"
#include "dfu_tinyusb.h"
#include <stdio.h>
#include <string.h>

enum { BLOCK = UNIT }; /* each block is written at once */
static unsigned passed, failed, begins;
static uint8_t old[100], other[70], new[BLOCK], in[BLOCK], kept[FLASH_SIZE];
static const char *row;
static bool breaks; /* the next operation of the flash changes the record */

uint8_t board_protocol(void)
{
    return dfu_tinyusb_protocol();
}

int32_t __real_dfu_core_begin(const struct dfu_config *, struct dfu_record *, const uint8_t *, size_t);
int32_t __wrap_dfu_core_begin(const struct dfu_config *, struct dfu_record *, const uint8_t *, size_t);
int32_t __wrap_dfu_core_begin(const struct dfu_config *c, struct dfu_record *r, const uint8_t *f, size_t size)
{
    begins++;
    return __real_dfu_core_begin(c, r, f, size);
}

int32_t __real_dfu_core_power_on(const struct dfu_config *, struct dfu_record *, const uint8_t *, size_t);
int32_t __wrap_dfu_core_power_on(const struct dfu_config *, struct dfu_record *, const uint8_t *, size_t);
int32_t __wrap_dfu_core_power_on(const struct dfu_config *c, struct dfu_record *r, const uint8_t *f, size_t size)
{
    begins++;
    return __real_dfu_core_power_on(c, r, f, size);
}

static void check(const char *what, bool holds)
{
    if (holds) {
        passed++;
    } else {
        failed++;
        printf("row WRONG refused: %s: %s\n", row, what);
    }
}

static void break_record(void)
{
    device.record.version ^= 1;
}

static int erase(void *own, uint32_t at, uint32_t length)
{
    if (breaks)
        break_record();
    breaks = false;
    return flash_driver.erase(own, at, length);
}

static int program(void *own, uint32_t at, const uint8_t *bytes, uint32_t length)
{
    return flash_driver.program(own, at, bytes, length);
}

static const struct dfu_driver breaking = {NULL, erase, program};

static int ask(uint8_t number, unsigned value, unsigned length)
{
    uint8_t setup[8] = {0x21, number, (uint8_t)value, 0, 0, 0, (uint8_t)length, (uint8_t)(length >> 8)};
    if (number == DFU_GETSTATUS)
        setup[0] = 0xa1;
    return bus_request(setup, new, in, TO_THE_END);
}

/* Returns the state that GETSTATUS reports, or BUS_STALL. */
static int status(void)
{
    const int n = ask(DFU_GETSTATUS, 0, 6);
    return n == 6 ? in[4] : n;
}

static bool is_active(const uint8_t *bytes, unsigned length)
{
    struct dfu_place place;
    return dfu_device_image(&device, &place) == 0 && place.length == length && memcmp(flash + place.at, bytes, length) == 0;
}

static void make(const char *name, bool is_upgrade)
{
    row = name;
    memset(flash, 0xff, sizeof flash);
    device.driver = &breaking;
    check("it has an image", dfu_device_format(&device, old, sizeof old) == 0);
    check("it enumerates", dfu_device_power_on(&device) == 0 && dfu_tinyusb_start(&device) == 0 && bus_enumerate());
    check("it gets power", (is_upgrade ? dfu_device_begin(&device) : dfu_device_power_on(&device)) == 0);
    check("it starts", dfu_tinyusb_start(&device) == 0 && status() == (is_upgrade ? DFU_STATE_IDLE : DFU_STATE_APP_IDLE));
    begins = 0;
}

/* Checks that the device began again once for this refusal, and that the host got one stall and no more. */
static void check_again(int32_t refusal, int state)
{
    check("the refusal is kept", dfu_tinyusb_refusal() == refusal);
    check("it begins again once", begins == 1);
    check("one stall is enough", status() == state);
}

static void download(void)
{
    check("a block is taken", ask(DFU_DNLOAD, 0, BLOCK) == 0 && status() == DFU_STATE_DNBUSY && status() == DFU_STATE_DNLOAD_IDLE);
    check("the close is taken", ask(DFU_DNLOAD, 1, 0) == 0 && status() == DFU_STATE_MANIFEST && status() == DFU_STATE_IDLE);
    check("the image is active", is_active(new, BLOCK));
}

/* Checks refusals before the answer to a request. */
static void at_requests(void)
{
    make("GETSTATUS in dfuIDLE", true);
    break_record();
    check("it is stalled", status() == BUS_STALL);
    check_again(DFU_NO_DEVICE, DFU_STATE_IDLE);
    download();

    make("DNLOAD in dfuDNLOAD-IDLE", true);
    check("a block is taken", ask(DFU_DNLOAD, 0, BLOCK) == 0 && status() == DFU_STATE_DNBUSY && status() == DFU_STATE_DNLOAD_IDLE);
    device.record.work = 1; /* pretends that operations are pending; the state is unchanged */
    check("it is stalled, and nothing taken", ask(DFU_DNLOAD, 1, BLOCK) == BUS_STALL);
    check_again(DFU_BUSY, DFU_STATE_IDLE);
    download();

    make("another image on the flash", true);
    memcpy(kept, &device, sizeof device);
    check("it is put there", dfu_device_format(&device, other, sizeof other) == 0);
    memcpy(&device, kept, sizeof device);
    begins = 0;
    check("GETSTATUS is stalled", status() == BUS_STALL);
    check_again(DFU_NO_MEDIUM, DFU_STATE_IDLE);
    check("the image is active", is_active(other, sizeof other));
    download();
}

/* Checks refusals in the work, after the answer was sent. */
static void at_work(void)
{
    make("the work of a block", true);
    check("a block is taken", ask(DFU_DNLOAD, 0, BLOCK) == 0);
    breaks = true;
    check("it is busy", status() == DFU_STATE_DNBUSY);
    check("GETSTATUS is stalled", status() == BUS_STALL);
    check_again(DFU_NO_DEVICE, DFU_STATE_IDLE);
    download();

    make("the work of an image", true);
    check("a block is taken", ask(DFU_DNLOAD, 0, BLOCK) == 0 && status() == DFU_STATE_DNBUSY && status() == DFU_STATE_DNLOAD_IDLE);
    check("the close is taken", ask(DFU_DNLOAD, 1, 0) == 0);
    breaks = true;
    check("it manifests", status() == DFU_STATE_MANIFEST);
    check("no host takes it for done", status() == BUS_STALL);
    check_again(DFU_NO_DEVICE, DFU_STATE_IDLE);
    check("the old image is active", is_active(old, sizeof old));
    download();
}

static void at_resets(void)
{
    make("a reset in DFU mode", true);
    break_record();
    bus_reset(false);
    check("it leads to run-time mode", dfu_tinyusb_protocol() == 1);
    check("it enumerates, and is stalled", bus_enumerate() && status() == BUS_STALL);
    check_again(DFU_NO_DEVICE, DFU_STATE_APP_IDLE);

    make("GETSTATUS in run-time mode", false);
    break_record();
    check("it is stalled", status() == BUS_STALL);
    check_again(DFU_NO_DEVICE, DFU_STATE_APP_IDLE);
    check("it takes a DETACH", ask(DFU_DETACH, 1000, 0) == 0);
    check("it comes back in DFU mode", bus_enumerate() && status() == DFU_STATE_IDLE);
    download();
}

/* Without an image the device can't begin: it tries once after DETACH, and at most once more for each request. It begins when its image is
 * back. An operation of the flash that fails leads to dfuERROR, and is no refusal. */
static void without_image(void)
{
    make("time without an image", false);
    check("it takes a DETACH", ask(DFU_DETACH, 1000, 0) == 0);
    memcpy(kept, flash, sizeof flash);
    memset(flash, 0xff, sizeof flash);
    for (int at = 0; at < 2000; at++)
        bus_time(1);
    check("it tries to begin once", begins == 1);
    check("it stays where it is", !dfu_tinyusb_leaves());
    for (int at = 0; at < 10; at++)
        check("GETSTATUS is stalled", status() == BUS_STALL);
    check("it tries once for a request", begins <= 11);
    check("the refusal says why", dfu_tinyusb_refusal() == DFU_NO_MEDIUM);
    memcpy(flash, kept, sizeof flash);
    begins = 0;
    for (int at = 0; at < 2 && begins == 0; at++)
        (void)status();
    bus_time(1);
    check("with its image it goes on", status() >= DFU_STATE_APP_IDLE);

    make("a flash that fails", true);
    flash_fails = 1;
    check("a block is taken", ask(DFU_DNLOAD, 0, BLOCK) == 0 && status() == DFU_STATE_DNBUSY);
    check("that is dfuERROR, and no refusal", status() == DFU_STATE_ERROR && dfu_tinyusb_refusal() == 0 && begins == 0);
    flash_fails = 0;
    check("it goes on", ask(DFU_CLRSTATUS, 0, 0) == 0 && status() == DFU_STATE_IDLE);
    download();
}

int main(void)
{
    const tusb_rhport_init_t init = {.role = TUSB_ROLE_DEVICE, .speed = TUSB_SPEED_HIGH};
    board_set_up();
    config.attributes = DFU_CAN_DNLOAD | DFU_MANIFESTATION_TOLERANT;
    config.manifest_ms = 20;
    memset(new, 0x5a, sizeof new);
    if (!tusb_rhport_init(0, &init))
        return 2;
    at_requests();
    at_work();
    at_resets();
    without_image();
    printf("%u passed, %u failed\n", passed, failed);
    return failed != 0;
}
