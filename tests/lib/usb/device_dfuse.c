/* A device of DfuSe, ST's variant of USB DFU: it follows the known behaviour of ST's bootloaders, without any of their code.
 *
 * DNLOAD of block 0 sends a command: 21h and an address set the pointer, 41h and an address erase the page at that address. DNLOAD of block
 * 2 or more sends bytes for the pointer's address. GETSTATUS starts the command or write and answers dfuDNBUSY; after its time the next
 * GETSTATUS returns its result. ABORT drops a command that was not started. UPLOAD from dfuIDLE or dfuUPLOAD-IDLE returns the memory at the
 * pointer plus the block's offset. DNLOAD of no bytes makes the device leave for its application, at the next GETSTATUS. The memory is that
 * of USB_PAGES. A loss of power during a write or an erase leaves every other byte changed. */
#include "dfuse_pages.h"
#include "log.h"
#include "model.h"
#include "settings.h"

#include <string.h>

enum { APP_IDLE, APP_DETACH, IDLE, DOWNLOAD_SYNC, BUSY, DOWNLOAD_IDLE, MANIFEST_SYNC, MANIFEST, WAIT_RESET, UPLOAD_IDLE, ERROR };
enum { DETACH, DNLOAD, UPLOAD, GETSTATUS, CLRSTATUS, GETSTATE, ABORT };
enum { OK, TARGET, WRITE = 3, ERASE, VENDOR = 11, STALLED_PKT = 15 };
enum { SET_ADDRESS = 0x21, ERASE_PAGE = 0x41 };

#define START 0x08000000u /* initial address of the pointer */

static struct {
    int state, code, next_code; /* next_code: status code at the end of the running command */
    uint32_t pointer, left_ms;  /* left_ms: time until the end of the command or of the manifestation */
    bool is_busy;               /* a command is running */
    uint32_t commands;          /* number of commands that were started */
    uint16_t block, length;     /* block and length of the last DNLOAD */
    uint8_t brought[65536];
} dfuse;

static void start(void)
{
    dfuse.state = IDLE;
    dfuse.code = OK;
    dfuse.pointer = START;
    dfuse.left_ms = 0;
    dfuse.is_busy = false;
}

static void power(void)
{
    if (dfuse.is_busy && dfuse.left_ms > 0)
        pages_tear();
    start();
}

static bool is_app(void)
{
    return dfuse.state <= APP_DETACH;
}

static bool is_there(void)
{
    return true;
}

/* A bus reset does not change the state of ST's bootloader. */
static void usb_reset(void)
{
}

/* Ends a command, or the manifestation, once its time has passed. */
static void settle(void)
{
    if (dfuse.left_ms > 0)
        return;
    if (dfuse.state == BUSY) {
        dfuse.code = dfuse.next_code;
        dfuse.state = dfuse.is_busy && settings.fails == (int)dfuse.commands - 1 ? ERROR : dfuse.code == OK ? DOWNLOAD_IDLE : ERROR;
        dfuse.is_busy = false;
    } else if (dfuse.state == MANIFEST) {
        log_started(dfuse.pointer);
        dfuse.state = APP_IDLE;
    }
}

static void elapse(uint32_t ms)
{
    dfuse.left_ms -= dfuse.left_ms < ms ? dfuse.left_ms : ms;
    if (dfuse.state == MANIFEST)
        settle();
}

static int refuse(void)
{
    dfuse.state = ERROR;
    dfuse.code = STALLED_PKT;
    return STALLED;
}

static uint32_t address_in(const uint8_t *bytes)
{
    return bytes[0] | (uint32_t)bytes[1] << 8 | (uint32_t)bytes[2] << 16 | (uint32_t)bytes[3] << 24;
}

static int run_command(void)
{
    uint32_t address = address_in(dfuse.brought + 1);
    if (dfuse.length != 5 || (dfuse.brought[0] != SET_ADDRESS && dfuse.brought[0] != ERASE_PAGE))
        return STALLED_PKT;
    if (dfuse.brought[0] == SET_ADDRESS || settings.erase_sets_pointer)
        dfuse.pointer = address;
    if (dfuse.brought[0] == SET_ADDRESS)
        return pages_has(address) ? OK : TARGET;
    dfuse.left_ms = settings.erase_ms;
    return settings.is_protected ? VENDOR : pages_erase(address) ? OK : TARGET;
}

static int run_write(void)
{
    uint32_t address = dfuse.pointer + (uint32_t)(dfuse.block - 2) * settings.transfer;
    dfuse.left_ms = settings.busy_ms;
    return settings.is_protected ? VENDOR : pages_write(address, dfuse.brought, dfuse.length) ? OK : WRITE;
}

/* Starts the command or write at the GETSTATUS after a DNLOAD. A command that must fail does nothing. */
static void run(void)
{
    bool fails = settings.fails == (int)dfuse.commands++;
    pages_keep();
    dfuse.left_ms = 0;
    dfuse.is_busy = true;
    dfuse.state = BUSY;
    dfuse.next_code = fails ? settings.fail_code : dfuse.block == 0 ? run_command() : dfuse.block == 1 ? STALLED_PKT : run_write();
}

static int answer(uint8_t *out, uint32_t poll_ms)
{
    const uint8_t bytes[6] = {(uint8_t)dfuse.code,      (uint8_t)poll_ms,     (uint8_t)(poll_ms >> 8),
                              (uint8_t)(poll_ms >> 16), (uint8_t)dfuse.state, 0};
    memcpy(out, bytes, sizeof bytes);
    return sizeof bytes;
}

static int tell_status(uint8_t *out)
{
    if (dfuse.state == DOWNLOAD_SYNC)
        run();
    else if (dfuse.state == BUSY && dfuse.left_ms > 0 && settings.stalls_early)
        return STALLED;
    else
        settle();
    if (dfuse.state == MANIFEST_SYNC) {
        dfuse.state = MANIFEST;
        dfuse.left_ms = 1;
    }
    return answer(out, settings.tells_times ? dfuse.left_ms : 0);
}

static int download(const uint8_t *body, uint16_t block, uint16_t length)
{
    if (dfuse.state != IDLE && dfuse.state != DOWNLOAD_IDLE)
        return refuse();
    if (length > settings.transfer && !(block == 0 && length <= 5))
        return refuse();
    dfuse.state = length == 0 ? MANIFEST_SYNC : DOWNLOAD_SYNC;
    dfuse.block = block;
    dfuse.length = length;
    memcpy(dfuse.brought, body, length);
    return 0;
}

static int upload(uint8_t *out, uint16_t block, uint16_t length)
{
    static const uint8_t commands[] = {0x00, SET_ADDRESS, ERASE_PAGE};
    uint32_t address = dfuse.pointer + (uint32_t)(block - 2) * settings.transfer;
    size_t count;
    if ((dfuse.state != IDLE && dfuse.state != UPLOAD_IDLE) || block == 1)
        return refuse();
    if (settings.is_protected) {
        dfuse.state = ERROR;
        dfuse.code = VENDOR;
        return STALLED;
    }
    count = length < sizeof commands ? length : sizeof commands;
    if (block == 0)
        memcpy(out, commands, count);
    else
        count = pages_read(address, out, length);
    dfuse.state = count < length ? IDLE : UPLOAD_IDLE;
    return (int)count;
}

static int simple(unsigned request, uint8_t *out, size_t room)
{
    bool is_ending = dfuse.state == MANIFEST || dfuse.state == MANIFEST_SYNC || dfuse.state == ERROR;
    if (request == GETSTATE && room > 0) {
        settle();
        out[0] = (uint8_t)dfuse.state;
        return 1;
    }
    if ((request != CLRSTATUS || dfuse.state != ERROR) && (request != ABORT || is_ending))
        return refuse();
    dfuse.state = IDLE;
    dfuse.code = OK;
    return 0;
}

static int handle(const uint8_t setup[8], const uint8_t *body, size_t length, uint8_t *out, size_t room)
{
    uint16_t value = (uint16_t)(setup[2] | setup[3] << 8);
    uint8_t bytes[6];
    int count;
    if (is_app())
        return STALLED;
    if (setup[1] == GETSTATUS) {
        count = tell_status(bytes);
        if (count > (int)room)
            count = (int)room;
        if (count > 0)
            memcpy(out, bytes, (size_t)count);
        return count;
    }
    if (dfuse.state == BUSY && dfuse.left_ms > 0 && setup[1] != GETSTATE)
        return STALLED;
    if (dfuse.state == BUSY)
        settle();
    switch (setup[1]) {
    case DNLOAD: return download(body, value, (uint16_t)length);
    case UPLOAD: return upload(out, value, (uint16_t)room);
    default: return simple(setup[1], out, room);
    }
}

/* Makes the device. An earlier run may have sent a command that was not started. */
static void make(void)
{
    pages_make();
    start();
    dfuse.state = settings.starts_in_app ? APP_IDLE : IDLE;
    if (settings.pending == 0)
        return;
    dfuse.state = DOWNLOAD_SYNC;
    dfuse.block = 0;
    dfuse.length = 5;
    dfuse.brought[0] = ERASE_PAGE;
    for (int at = 0; at < 4; at++)
        dfuse.brought[1 + at] = (uint8_t)(settings.pending >> 8 * at);
}

static void set_interface(void)
{
}
static int state(void)
{
    return dfuse.state;
}
static int code(void)
{
    return dfuse.code;
}

static struct part keeps(unsigned number)
{
    struct part memory = pages_memory();
    const struct part parts[] = {{&dfuse, sizeof dfuse}, memory, {NULL, 0}};
    return parts[number];
}

const struct model dfuse_model = {
    .make = make,
    .power = power,
    .handle = handle,
    .elapse = elapse,
    .usb_reset = usb_reset,
    .set_interface = set_interface,
    .is_there = is_there,
    .is_app = is_app,
    .state = state,
    .code = code,
    .image = pages_memory,
    .keeps = keeps,
};
