/* A small bootloader, like those of many boards. It follows rules that such bootloaders share, without any of their code:
 *
 * It has one slot and overwrites it: block 0 erases the old image. It stores a received block in memory; GETSTATUS answers dfuDNBUSY, and
 * after that answer the block is written, and the state is dfuDNLOAD-IDLE. After the close GETSTATUS answers dfuMANIFEST; then the device
 * resets itself, at once or after USB_MANIFEST ms, and starts the application without a request of the host. ABORT and CLRSTATUS lead to
 * dfuIDLE; unknown requests are stalled, and change nothing. After a download that was broken off it stays in DFU mode, even after a loss
 * of power. */
#include "model.h"
#include "settings.h"

#include <stdlib.h>
#include <string.h>

enum { APP_IDLE, APP_DETACH, IDLE, DOWNLOAD_SYNC, BUSY, DOWNLOAD_IDLE, MANIFEST_SYNC, MANIFEST, WAIT_RESET, UPLOAD_IDLE };
enum { DETACH, DNLOAD, UPLOAD, GETSTATUS, CLRSTATUS, GETSTATE, ABORT };

#define RESET_MS 5 /* time off the bus during its own reset */

static struct {
    int state;
    bool is_whole;                     /* true if the last download was closed */
    uint32_t leaves_ms, away_ms, size; /* time until it resets itself, time until it returns, and bytes of the image */
    uint16_t number, length;           /* number and length of the stored block */
    uint8_t block[4096];
} small;
static uint8_t *memory;

static bool is_app(void)
{
    return small.state <= APP_DETACH;
}

static bool is_there(void)
{
    return small.away_ms == 0;
}

/* Starts the program that a reset or power-on selects. */
static void start(void)
{
    small.leaves_ms = 0;
    small.state = small.is_whole ? APP_IDLE : IDLE;
}

static void power(void)
{
    small.away_ms = 0;
    start();
}

static void reset_itself(void)
{
    bool is_detaching = small.state == APP_DETACH;
    start();
    small.away_ms = RESET_MS;
    if (is_detaching || !settings.restarts_in_app)
        small.state = IDLE;
}

/* Handles a bus reset, which starts a program as power-on does. In appDETACH it leads to DFU mode instead, or has no effect if USB_LEAVES
 * is set. */
static void usb_reset(void)
{
    if (small.state != APP_DETACH)
        start();
    else if (settings.detaches_ms == 0)
        small.state = IDLE;
}

static void elapse(uint32_t ms)
{
    bool is_out = small.leaves_ms > 0 && small.leaves_ms <= ms;
    small.away_ms -= small.away_ms < ms ? small.away_ms : ms;
    if (is_out)
        reset_itself();
    else if (small.leaves_ms > 0)
        small.leaves_ms -= ms;
    if (small.state == APP_DETACH && settings.detaches_ms == 0 && (settings.attributes & 8) != 0)
        small.state = IDLE;
}

static int status(uint8_t *out, int state, uint32_t poll_ms)
{
    const uint8_t answer[6] = {0, (uint8_t)poll_ms, (uint8_t)(poll_ms >> 8), (uint8_t)(poll_ms >> 16), (uint8_t)state, 0};
    memcpy(out, answer, sizeof answer);
    return sizeof answer;
}

/* Writes the stored block. Drops bytes beyond the capacity without an error, as such bootloaders do. */
static void write_block(void)
{
    uint32_t at = (uint32_t)small.number * settings.transfer;
    if (small.number == 0)
        small.size = 0;
    for (uint32_t i = 0; i < small.length && at + i < settings.capacity; i++) {
        memory[at + i] = small.block[i];
        small.size = at + i + 1;
    }
    small.is_whole = false;
    small.state = DOWNLOAD_IDLE;
}

static int tell_status(uint8_t *out)
{
    int count;
    switch (small.state) {
    case DOWNLOAD_SYNC:
        count = status(out, BUSY, settings.busy_ms);
        write_block();
        return count;
    case MANIFEST_SYNC:
        count = status(out, MANIFEST, settings.manifest_ms);
        small.state = MANIFEST;
        small.is_whole = true;
        small.leaves_ms = settings.manifest_ms;
        if (small.leaves_ms == 0)
            reset_itself();
        return count;
    default: return status(out, small.state, small.leaves_ms);
    }
}

static int download(const uint8_t *body, uint16_t number, uint16_t length)
{
    if (length > sizeof small.block)
        return STALLED;
    small.state = length == 0 ? MANIFEST_SYNC : DOWNLOAD_SYNC;
    small.number = number;
    small.length = length;
    memcpy(small.block, body, length);
    return 0;
}

static int upload(uint8_t *out, uint16_t number, uint16_t length)
{
    uint32_t at = (uint32_t)number * settings.transfer;
    uint32_t left = at < small.size ? small.size - at : 0;
    uint32_t count = left < length ? left : length;
    if ((settings.attributes & 2) == 0)
        return STALLED;
    memcpy(out, memory + at, count);
    small.state = count < length ? IDLE : UPLOAD_IDLE;
    return (int)count;
}

static int in_app(unsigned what, uint8_t *out)
{
    if (what == GETSTATUS)
        return status(out, small.state, 0);
    if (what != DETACH)
        return STALLED;
    small.state = APP_DETACH;
    small.leaves_ms = settings.detaches_ms;
    return 0;
}

static int handle(const uint8_t setup[8], const uint8_t *body, size_t length, uint8_t *out, size_t room)
{
    uint16_t value = (uint16_t)(setup[2] | setup[3] << 8);
    uint8_t answer[6];
    if (!is_there())
        return STALLED;
    if (!is_app() && setup[1] == DNLOAD)
        return download(body, value, (uint16_t)length);
    if (!is_app() && setup[1] == UPLOAD)
        return upload(out, value, (uint16_t)room);
    if (!is_app() && (setup[1] == CLRSTATUS || setup[1] == ABORT)) {
        small.state = IDLE;
        return 0;
    }
    answer[0] = (uint8_t)small.state;
    int count = is_app() ? in_app(setup[1], answer) : setup[1] == GETSTATE ? 1 : setup[1] == GETSTATUS ? tell_status(answer) : STALLED;
    int told = count < (int)room ? count : (int)room;
    if (told > 0)
        memcpy(out, answer, (size_t)told);
    return count < 0 ? count : told;
}

static void make(void)
{
    struct part image = read_image(settings.image);
    memory = calloc(1, settings.capacity + (size_t)65536 * settings.transfer);
    if (memory == NULL || image.size > settings.capacity)
        fail_loudly("no room for an image of %zu bytes", image.size);
    memcpy(memory, image.at, image.size);
    small.size = (uint32_t)image.size;
    small.is_whole = true;
    small.state = settings.starts_in_app ? APP_IDLE : IDLE;
}

static void set_interface(void)
{
}
static int state(void)
{
    return small.state;
}
static int code(void)
{
    return 0;
}

static struct part image(void)
{
    return (struct part){memory, small.size};
}

static struct part keeps(unsigned number)
{
    const struct part parts[] = {{&small, sizeof small}, {memory, settings.capacity}, {NULL, 0}};
    return parts[number];
}

const struct model small_model = {
    .make = make,
    .power = power,
    .handle = handle,
    .elapse = elapse,
    .usb_reset = usb_reset,
    .set_interface = set_interface,
    .is_there = is_there,
    .is_app = is_app,
    .state = state,
    .code = code,
    .image = image,
    .keeps = keeps,
};
