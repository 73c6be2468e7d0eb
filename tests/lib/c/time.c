/* Tests time as a program observes it: the work does everything that is pending, whatever clock the program has. The block and the image
 * are written if a program reads no clock, if a host polls too early, and if dfu_device_reset or another request directly follows the
 * answer with dfuMANIFEST. The devices are tolerant or not, and are overwritten in place or have sectors. Further tests: which reset
 * counts, a start in dfuIDLE, and an interface with another number. */
#include <stdio.h>
#include <string.h>

#include "dfu_device_memory.h"

static struct dfu_config config = {DFU_VERSION, 0x0100, 1, 0x1209, 255, 8, 7, 0, 120, 500, 1, 1, 0, 0, 0};
static uint8_t medium[DFU_MEDIUM_SIZE(1, 256, 512)], block[DFU_BLOCK_SIZE(8, 1)], out[8];
static const struct dfu_driver driver = DFU_MEMORY_DRIVER(medium);
static struct dfu_device dfu = {.config = &config, .flash = medium, .block = block, .most = sizeof block, .driver = &driver};
static const uint8_t image[4] = {0xaa, 0xbb, 0xcc, 0xdd};
static int wrong, rows;

static void expect(const char *what, int holds) {
    rows++;
    if (!holds) {
        printf("time: %s, attributes %u, sector %u, interface %u\n", what, config.attributes, (unsigned)config.sector,
               config.interface_number);
        wrong = 1;
    }
}

/* Serves a request without a report that the answer was sent. */
static int32_t serve(uint8_t kind, uint8_t request, uint16_t value, uint8_t index, uint8_t length) {
    const uint8_t setup[8] = {kind, request, (uint8_t)value, (uint8_t)(value >> 8), index, 0, length, 0};
    return dfu_device_serve(&dfu, setup, image, out, sizeof out);
}

/* Checks that GETSTATUS returns this state, and that the device is then in it. */
static void status_is(const char *what, uint8_t state) {
    expect(what, serve(0xa1, DFU_GETSTATUS, 0, config.interface_number, 6) == 6 && out[0] == DFU_STATUS_OK && out[4] == state
        && dfu_device_state(&dfu) == state);
}

static int has(const uint8_t *bytes, uint32_t length) {
    struct dfu_place place;
    return dfu_device_image(&dfu, &place) == 0 && place.length == length && memcmp(medium + place.at, bytes, length) == 0;
}

/* Makes a board with an image of two bytes, in dfuIDLE. */
static void start(void) {
    dfu.size = DFU_MEDIUM_SIZE(1, config.sector, 512);
    expect("format", dfu_device_format(&dfu, (const uint8_t *)"\x11\x22", 2) == 0);
    expect("begin", dfu_device_begin(&dfu) == 0 && dfu_device_state(&dfu) == DFU_STATE_IDLE);
}

/* Downloads up to the answer with dfuMANIFEST. The host polls at once; the program has no clock and does no work itself. */
static void download(void) {
    start();
    expect("DNLOAD", serve(0x21, DFU_DNLOAD, 0, config.interface_number, 4) == 0);
    status_is("busy", DFU_STATE_DNBUSY);
    expect("it says how long", out[1] == 120);
    status_is("an early asker", DFU_STATE_DNLOAD_IDLE);
    expect("close", serve(0x21, DFU_DNLOAD, 1, config.interface_number, 0) == 0);
    status_is("manifest", DFU_STATE_MANIFEST);
    expect("the old image", has((const uint8_t *)"\x11\x22", 2));
}

/* After the answer the first dfu_device_work, dfu_device_reset or request does the work. A bus reset doesn't, and drops the image. */
static void first_comes(void) {
    download();
    expect("work", dfu_device_work(&dfu) == 0 && has(image, 4) && dfu_device_work(&dfu) == 0);
    expect("after the work", dfu_device_state(&dfu) == (config.attributes & DFU_MANIFESTATION_TOLERANT ? DFU_STATE_MANIFEST_SYNC
        : DFU_STATE_MANIFEST_WAIT_RESET));
    download();
    expect("a reset behind dfuMANIFEST", dfu_device_reset(&dfu) == 0 && dfu_device_state(&dfu) == DFU_STATE_APP_IDLE && has(image, 4));
    download();
    if (config.attributes & DFU_MANIFESTATION_TOLERANT)
        status_is("an early asker of dfuMANIFEST", DFU_STATE_IDLE);
    else
        expect("an early asker of dfuMANIFEST", serve(0xa1, DFU_GETSTATUS, 0, config.interface_number, 6) == DFU_STALL);
    expect("the image", has(image, 4));
    download();
    expect("UPLOAD behind dfuMANIFEST", serve(0xa1, DFU_UPLOAD, 0, config.interface_number, 8) == DFU_STALL && has(image, 4));
    /* Without the work a reset drops the image. */
    download();
    expect("a reset without the work", dfu_device_usb_reset(&dfu) == 0 && has((const uint8_t *)"\x11\x22", 2));
}

/* A late clock changes nothing, because the work does not depend on it. */
static void lazy_clock(void) {
    download();
    expect("answered", dfu_device_answered(&dfu) == DFU_WRITE_PENDING && dfu_device_answered(&dfu) == DFU_BUSY);
    expect("settled", dfu_device_settle(&dfu, DFU_WRITE_PENDING, out, sizeof out) == 0 && has(image, 4));
    int32_t state = dfu_device_state(&dfu);
    expect("a clock that comes late", dfu_device_elapse(&dfu, 499) == 0 && dfu_device_state(&dfu) == state
        && dfu_device_answered(&dfu) == 0);
    /* A clock that is too slow leaves the device in dfuDNBUSY, but the work ends the time. */
    start();
    expect("DNLOAD", serve(0x21, DFU_DNLOAD, 0, config.interface_number, 4) == 0);
    status_is("busy", DFU_STATE_DNBUSY);
    expect("119 of 120 ms", dfu_device_elapse(&dfu, 119) == 0 && dfu_device_state(&dfu) == DFU_STATE_DNBUSY && dfu_device_due(&dfu) == 1);
    expect("the work takes the rest", dfu_device_work(&dfu) == 0 && dfu_device_state(&dfu) == DFU_STATE_DNLOAD_SYNC);
}

/* Without a driver the operations are done only once the program carries them out. */
static void no_driver(void) {
    struct dfu_ask ask;
    int32_t n = DFU_WRITE_PENDING;
    download();
    dfu.driver = NULL;
    expect("a reset asks", dfu_device_reset(&dfu) == DFU_WRITE_PENDING && dfu_device_state(&dfu) == DFU_STATE_MANIFEST);
    expect("then each call is refused", dfu_device_reset(&dfu) == DFU_BUSY
        && serve(0xa1, DFU_GETSTATUS, 0, config.interface_number, 6) == DFU_BUSY);
    while (n == DFU_WRITE_PENDING && dfu_device_next(&dfu, &ask) == 0)
        n = dfu_device_took(&dfu, dfu_device_carry_out(&driver, &ask), out, sizeof out);
    expect("carried out", n == 0 && has(image, 4) && dfu_device_reset(&dfu) == 0 && dfu_device_state(&dfu) == DFU_STATE_APP_IDLE);
    dfu.driver = &driver;
    download();
    dfu.driver = NULL;
    expect("a request asks", serve(0xa1, DFU_GETSTATUS, 0, config.interface_number, 6) == DFU_WRITE_PENDING);
    dfu.driver = &driver;
    expect("settled", dfu_device_settle(&dfu, DFU_WRITE_PENDING, out, sizeof out) == 0 && has(image, 4));
}

/* Checks the state after resets in several states, and after the time of a DETACH. */
static void resets(void) {
    start();
    expect("one more than an enumeration has", dfu_device_reset(&dfu) == 0 && dfu_device_state(&dfu) == DFU_STATE_APP_IDLE);
    expect("DETACH", serve(0x21, DFU_DETACH, 200, config.interface_number, 0) == 0 && dfu_device_work(&dfu) == 0
        && dfu_device_state(&dfu) == DFU_STATE_APP_DETACH && dfu_device_due(&dfu) > 0);
    expect("a reset", dfu_device_reset(&dfu) == 0 && dfu_device_state(&dfu) == DFU_STATE_IDLE);
    expect("a second reset", dfu_device_reset(&dfu) == 0 && dfu_device_state(&dfu) == DFU_STATE_APP_IDLE);
    serve(0x21, DFU_DETACH, 200, config.interface_number, 0);
    expect("too late", dfu_device_elapse(&dfu, 200) == 0
        && dfu_device_state(&dfu) == (config.attributes & DFU_WILL_DETACH ? DFU_STATE_IDLE : DFU_STATE_APP_IDLE));
}

/* Requests to the device's own interface are served; requests to another one are stalled and change nothing. */
static void interfaces(void) {
    start();
    struct dfu_record before = dfu.record;
    expect("another interface", serve(0x21, DFU_DNLOAD, 0, (uint8_t)(config.interface_number + 1), 4) == DFU_STALL);
    expect("interface 0", config.interface_number == 0 || serve(0x21, DFU_DNLOAD, 0, 0, 4) == DFU_STALL);
    expect("unchanged", memcmp(&before, &dfu.record, sizeof before) == 0);
    expect("its own", serve(0x21, DFU_DNLOAD, 0, config.interface_number, 4) == 0 && dfu_device_state(&dfu) == DFU_STATE_DNLOAD_SYNC);
    start();
    expect("too long", serve(0x21, DFU_DNLOAD, 0, config.interface_number, 9) == DFU_STALL && dfu_device_state(&dfu) == DFU_STATE_ERROR
        && dfu_device_code(&dfu) == DFU_STATUS_ERR_STALLED_PKT);
    start();
    expect("too long for another one", serve(0x21, DFU_DNLOAD, 0, (uint8_t)(config.interface_number + 1), 9) == DFU_STALL
        && dfu_device_state(&dfu) == DFU_STATE_IDLE);
}

int main(void) {
    static const uint8_t attributes[] = {7, 3, 5, 1, 15, 11};
    for (size_t at = 0; at < 2 * sizeof attributes; at++) {
        config.attributes = attributes[at / 2];
        config.sector = at % 2 * 256;
        config.interface_number = at % 3 == 0 ? 0 : 3;
        first_comes();
        lazy_clock();
        no_driver();
        resets();
        interfaces();
    }
    printf("time: %d rows\n", rows);
    return wrong;
}
