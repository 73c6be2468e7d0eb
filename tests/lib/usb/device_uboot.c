/* A device by the rules of U-Boot 2023.01's DFU function (drivers/usb/gadget/f_dfu.c there), written anew for these tests. It differs from
 * appendix A of the standard: after a block it reports dfuDNLOAD-IDLE at once, without dfuDNBUSY. A wrong request leads to dfuERROR with
 * the code OK, and a block that can't be stored leads to errUNKNOWN. The download is flushed after the answer with dfuMANIFEST; if that
 * fails, U-Boot exits, and the device is gone. */
#include "model.h"
#include "settings.h"
#include "uboot_store.h"

#include <string.h>

enum { APP_IDLE, APP_DETACH, IDLE, DOWNLOAD_SYNC, BUSY, DOWNLOAD_IDLE, MANIFEST_SYNC, MANIFEST, WAIT_RESET, UPLOAD_IDLE, ERROR };
enum { DETACH, DNLOAD, UPLOAD, GETSTATUS, CLRSTATUS, GETSTATE, ABORT };

#define ERR_UNKNOWN 0x0e

static struct {
    int state, code;
    bool is_app;  /* the device's descriptors are those of run-time mode */
    bool is_gone; /* U-Boot has left its DFU command */
} uboot;

/* One of the seven requests, with wValue and wLength. */
struct request {
    unsigned what;
    uint16_t value, length;
};

static int refuse(int state)
{
    uboot.state = state;
    return STALLED;
}

static int status(uint8_t *out, uint32_t poll_ms)
{
    const uint8_t answer[6] = {(uint8_t)uboot.code,      (uint8_t)poll_ms,     (uint8_t)(poll_ms >> 8),
                               (uint8_t)(poll_ms >> 16), (uint8_t)uboot.state, 0};
    memcpy(out, answer, sizeof answer);
    return sizeof answer;
}

static int tell_state(uint8_t *out)
{
    out[0] = (uint8_t)uboot.state;
    return 1;
}

static int download(const struct request *request, const uint8_t *body)
{
    uboot.state = request->length == 0 ? MANIFEST_SYNC : DOWNLOAD_SYNC;
    if (store_write(body, request->length, request->value) != 0) {
        uboot.code = ERR_UNKNOWN;
        uboot.state = ERROR;
    }
    return 0;
}

/* Handles UPLOAD as U-Boot does: it reads up to a full transfer size, even if wLength is smaller. Fewer bytes than wLength end the upload.
 */
static int upload(const struct request *request, uint8_t *out, uint16_t number)
{
    int count = store_read(out, settings.transfer, number);
    if (count < 0)
        return STALLED;
    if (count < request->length)
        uboot.state = IDLE;
    return count < request->length ? count : request->length;
}

static int in_app(const struct request *request, uint8_t *out)
{
    if (request->what == GETSTATUS)
        return status(out, 0);
    if (request->what == GETSTATE)
        return tell_state(out);
    if (request->what != DETACH || uboot.state == APP_DETACH)
        return refuse(APP_IDLE);
    uboot.state = APP_DETACH;
    uboot.is_app = false;
    return 0;
}

static int in_idle(const struct request *request, const uint8_t *body, uint8_t *out)
{
    switch (request->what) {
    case DNLOAD: return request->length == 0 ? refuse(ERROR) : download(request, body);
    case UPLOAD: uboot.state = UPLOAD_IDLE; return upload(request, out, 0);
    case ABORT: return 0;
    case GETSTATUS: return status(out, 0);
    case GETSTATE: return tell_state(out);
    case DETACH: /* not as in the standard: the device returns to run-time mode */
        uboot.state = APP_IDLE;
        uboot.is_app = true;
        return 0;
    default: return refuse(ERROR);
    }
}

/* Handles requests in dfuDNLOAD-IDLE and dfuUPLOAD-IDLE, where the transfer continues. */
static int in_transfer(const struct request *request, const uint8_t *body, uint8_t *out)
{
    if (request->what == GETSTATUS)
        return status(out, 0);
    if (request->what == GETSTATE)
        return tell_state(out);
    if (request->what == DNLOAD && uboot.state == DOWNLOAD_IDLE)
        return download(request, body);
    if (request->what == UPLOAD && uboot.state == UPLOAD_IDLE)
        return upload(request, out, request->value);
    if (request->what != ABORT)
        return refuse(ERROR);
    uboot.state = IDLE;
    return 0;
}

/* Handles requests in the states that GETSTATUS changes. */
static int in_passing(const struct request *request, uint8_t *out)
{
    static const int next[] = {[DOWNLOAD_SYNC] = DOWNLOAD_IDLE, [BUSY] = DOWNLOAD_IDLE, [MANIFEST_SYNC] = MANIFEST, [MANIFEST] = IDLE};
    if (request->what == GETSTATE && uboot.state != BUSY)
        return tell_state(out);
    if (request->what != GETSTATUS)
        return refuse(ERROR);
    bool flushes = uboot.state == MANIFEST_SYNC;
    uboot.state = next[uboot.state];
    int count = status(out, flushes ? settings.manifest_ms : 0);
    if (flushes && store_flush() != 0)
        uboot.is_gone = true;
    return count;
}

static int in_error(const struct request *request, uint8_t *out)
{
    if (request->what == GETSTATUS)
        return status(out, 0);
    if (request->what == GETSTATE)
        return tell_state(out);
    if (request->what != CLRSTATUS)
        return refuse(ERROR);
    uboot.code = 0;
    uboot.state = IDLE;
    return 0;
}

static int handle(const uint8_t setup[8], const uint8_t *body, size_t length, uint8_t *out, size_t room)
{
    static uint8_t answer[65536];
    const struct request request = {setup[1], (uint16_t)(setup[2] | setup[3] << 8), (uint16_t)(setup[6] | setup[7] << 8)};
    int count;
    if (request.length > settings.transfer || (!(setup[0] & 0x80) && length != request.length))
        fail_loudly("a transfer of %u bytes, over wTransferSize, is not in this model", request.length);
    switch (uboot.state) {
    case APP_IDLE:
    case APP_DETACH: count = in_app(&request, answer); break;
    case IDLE: count = in_idle(&request, body, answer); break;
    case DOWNLOAD_IDLE:
    case UPLOAD_IDLE: count = in_transfer(&request, body, answer); break;
    case ERROR: count = in_error(&request, answer); break;
    default: count = in_passing(&request, answer);
    }
    size_t told = count < 0 ? 0 : (size_t)count < room ? (size_t)count : room;
    memcpy(out, answer, told);
    return count < 0 ? count : (int)told;
}

/* Handles SET_INTERFACE, and a host's SET_CONFIGURATION after a reset. The gathered part of a download stays. */
static void set_interface(void)
{
    uboot.state = IDLE;
    uboot.code = 0;
}

static void usb_reset(void)
{
    uboot.is_app = false;
    set_interface();
}

static void power(void)
{
    uboot.is_gone = false;
    store_forget();
    usb_reset();
}

static void make(void)
{
    if (settings.starts_in_app)
        fail_loudly("the model of U-Boot starts in DFU mode alone");
    store_make();
    power();
}

static void elapse(uint32_t ms)
{
    (void)ms;
}
static bool is_there(void)
{
    return !uboot.is_gone;
}
static bool is_app(void)
{
    return uboot.is_app;
}
static int state(void)
{
    return uboot.state;
}
static int code(void)
{
    return uboot.code;
}

static struct part keeps(unsigned number)
{
    return number == 0 ? (struct part){&uboot, sizeof uboot} : store_keeps(number - 1);
}

const struct model uboot_model = {
    .make = make,
    .power = power,
    .handle = handle,
    .elapse = elapse,
    .usb_reset = usb_reset,
    .set_interface = set_interface,
    .is_there = is_there,
    .is_app = is_app,
    .state = state,
    .code = code,
    .image = store_image,
    .keeps = keeps,
};
