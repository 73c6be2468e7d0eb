/* Calls of the program that the stand-in handles instead of Linux. */
#define _GNU_SOURCE
#include "kernel.h"

#include <errno.h>
#include <fcntl.h>
#include <linux/usb/functionfs.h>
#include <stdarg.h>
#include <stdio.h>
#include <stdlib.h>
#include <string.h>
#include <time.h>
#include <unistd.h>

int64_t now_ms = 1000000;
bool is_state_written;
int state_file = -1;
static int controller_files[2] = {-1, -1};
static unsigned writes, syncs;

int __real_open(const char *path, int flags, ...);
int __real_close(int file);
ssize_t __real_read(int file, void *bytes, size_t length);
ssize_t __real_write(int file, const void *bytes, size_t length);
ssize_t __real_pread(int file, void *bytes, size_t length, off_t at);
ssize_t __real_pwrite(int file, const void *bytes, size_t length, off_t at);
int __real_fdatasync(int file);
int __real_posix_fadvise(int file, off_t at, off_t length, int advice);

/* The last write, whose bytes are in the kernel's memory, but not yet on the disk: a reader gets them until they are dropped. */
static struct {
    off_t at;
    size_t length;
    uint8_t before[4096];
    bool is_lost;
} last;

static bool ends(const char *path, const char *end)
{
    size_t length = strlen(path), behind = strlen(end);
    return length >= behind && strcmp(path + length - behind, end) == 0;
}

static bool is_nth(const char *variable, unsigned number)
{
    const char *value = getenv(variable);
    return value != NULL && (unsigned)atoi(value) == number;
}

int __wrap_open(const char *path, int flags, ...)
{
    va_list more;
    va_start(more, flags);
    int file = __real_open(path, flags, (flags & O_CREAT) != 0 ? va_arg(more, int) : 0);
    va_end(more);
    for (int at = 0; at < 2; at++) {
        char end[64];
        snprintf(end, sizeof end, "usb-ffs/%s/ep0", endpoints[at].gadget);
        if (ends(path, end))
            endpoints[at].file = file;
        snprintf(end, sizeof end, "usb_gadget/%s/UDC", endpoints[at].gadget);
        if (ends(path, end) && (flags & O_ACCMODE) == O_WRONLY)
            controller_files[at] = file;
    }
    if (ends(path, "/state"))
        state_file = file;
    return file;
}

int __wrap_close(int file)
{
    for (int at = 0; at < 2; at++) {
        if (file >= 0 && endpoints[at].file == file) {
            endpoints[at].file = -1;
            endpoints[at].written = 0;
        }
        if (controller_files[at] == file)
            controller_files[at] = -1;
    }
    if (state_file == file)
        state_file = -1;
    return __real_close(file);
}

/* Handles a controller's name, which connects the gadget, so that the host configures it. An empty name disconnects the gadget. */
static ssize_t write_controller(struct endpoint *endpoint, const char *bytes, size_t length)
{
    bool is_join = bytes[0] != '\n';
    if (is_join && joined() != NULL) {
        errno = EBUSY;
        return -1;
    }
    if (!is_join && !endpoint->is_joined) {
        errno = ENODEV;
        return -1;
    }
    host_note("%s %s", endpoint->gadget, is_join ? "joins" : "leaves");
    is_state_written = true;
    endpoint->is_joined = endpoint->is_enabled = is_join;
    event_add(endpoint, is_join ? FUNCTIONFS_BIND : FUNCTIONFS_DISABLE);
    event_add(endpoint, is_join ? FUNCTIONFS_ENABLE : FUNCTIONFS_UNBIND);
    return (ssize_t)length;
}

/* Accepts the interface and functional descriptors for three speeds, then the strings. Linux before 6.11 refuses functional descriptors. */
static ssize_t write_descriptors(struct endpoint *endpoint, const uint8_t *bytes, size_t length)
{
    static const uint8_t head[12] = {3, 0, 0, 0, 82, 0, 0, 0, 39, 0, 0, 0};
    bool is_right = endpoint->written == 1 ? length >= 20 && bytes[0] == 2 && bytes[4] == length && bytes[length - 1] == 0
                                           : length == 82 && memcmp(bytes, head, 12) == 0 && bytes[28] == 9 && bytes[29] == 4
                                                 && bytes[33] == 0xfe && bytes[34] == 1 && bytes[37] == 9 && bytes[38] == 0x21;
    if (!is_right || getenv("GADGET_OLD_KERNEL") != NULL) {
        errno = EINVAL;
        return -1;
    }
    if (endpoint->written++ == 0) {
        memcpy(&endpoint->signals, bytes + 12, 4);
        host_note("%s protocol %d, functional %02x%02x%02x%02x%02x%02x%02x%02x%02x", endpoint->gadget, bytes[35], bytes[37], bytes[38],
                  bytes[39], bytes[40], bytes[41], bytes[42], bytes[43], bytes[44], bytes[45]);
    } else if (strcmp((const char *)bytes + 18, "Firmware") != 0)
        host_note("%s is named %s", endpoint->gadget, (const char *)bytes + 18);
    return (ssize_t)length;
}

static ssize_t end_pending(struct endpoint *endpoint, const char *what, const uint8_t *bytes, size_t length, ssize_t answer)
{
    host_said(endpoint, what, bytes, length);
    endpoint->is_pending = false;
    if (answer < 0)
        errno = EL2HLT;
    return answer;
}

ssize_t __wrap_write(int file, const void *bytes, size_t length)
{
    struct endpoint *endpoint = endpoint_of(file);
    for (int at = 0; at < 2; at++)
        if (file >= 0 && controller_files[at] == file)
            return write_controller(&endpoints[at], bytes, length);
    if (endpoint == NULL)
        return __real_write(file, bytes, length);
    if (endpoint->written < 2)
        return write_descriptors(endpoint, bytes, length);
    if (endpoint->is_pending && (endpoint->setup[0] & 0x80) != 0)
        return end_pending(endpoint, "", bytes, length, (ssize_t)length);
    if (endpoint->is_pending)
        return end_pending(endpoint, "stall", NULL, 0, -1);
    errno = endpoint->is_cancelled ? EIDRM : ESRCH;
    endpoint->is_cancelled = false;
    return -1;
}

static ssize_t read_data(struct endpoint *endpoint, void *bytes, size_t length)
{
    int count = length == 0 ? 0 : host_data(bytes, length);
    if ((endpoint->setup[0] & 0x80) != 0)
        return end_pending(endpoint, "stall", NULL, 0, -1);
    end_pending(endpoint, count < 0 ? "gave up" : "ok", NULL, 0, 0);
    errno = EINTR;
    return count;
}

ssize_t __wrap_read(int file, void *bytes, size_t length)
{
    struct endpoint *endpoint = endpoint_of(file);
    struct usb_functionfs_event *events = bytes;
    size_t many;
    if (endpoint == NULL)
        return __real_read(file, bytes, length);
    if (endpoint->is_pending)
        return read_data(endpoint, bytes, length);
    if (endpoint->is_cancelled || endpoint->count == 0) {
        errno = endpoint->is_cancelled ? EIDRM : EAGAIN;
        endpoint->is_cancelled = false;
        return -1;
    }
    many = length / sizeof *events < endpoint->count ? length / sizeof *events : endpoint->count;
    memset(events, 0, many * sizeof *events);
    for (size_t at = 0; at < many; at++) {
        events[at].type = endpoint->types[at];
        if (events[at].type == FUNCTIONFS_SETUP) {
            memcpy(&events[at].u.setup, endpoint->setup, 8);
            endpoint->is_pending = true;
        }
    }
    endpoint->count -= many;
    memmove(endpoint->types, endpoint->types + many, endpoint->count);
    return (ssize_t)(many * sizeof *events);
}

ssize_t __wrap_pread(int file, void *bytes, size_t length, off_t at)
{
    if (file == state_file)
        is_state_written = false;
    return __real_pread(file, bytes, length, at);
}

ssize_t __wrap_pwrite(int file, const void *bytes, size_t length, off_t at)
{
    if (is_nth("GADGET_FAILS_WRITE", ++writes)) {
        errno = EIO;
        return -1;
    }
    if (is_nth("GADGET_CUT", writes)) { /* power is lost in the middle of the write */
        __real_pwrite(file, bytes, length / 2, at);
        _exit(96);
    }
    if (getenv("GADGET_SAID") != NULL)
        host_note("write %lld %zu", (long long)at, length);
    last.at = at;
    last.length = length <= sizeof last.before ? length : 0;
    if (last.length > 0 && __real_pread(file, last.before, length, at) != (ssize_t)length)
        last.length = 0;
    return __real_pwrite(file, bytes, length, at);
}

int __wrap_fdatasync(int file)
{
    if (is_nth("GADGET_FAILS_SYNC", ++syncs)) {
        last.is_lost = true;
        errno = EIO;
        return -1;
    }
    return __real_fdatasync(file);
}

int __wrap_posix_fadvise(int file, off_t at, off_t length, int advice)
{
    if (advice == POSIX_FADV_DONTNEED && last.is_lost && getenv("GADGET_KEEPS") == NULL) {
        __real_pwrite(file, last.before, last.length, last.at);
        last.is_lost = false;
    }
    return __real_posix_fadvise(file, at, length, advice);
}

int __wrap_mincore(void *bytes, size_t length, unsigned char *kept)
{
    (void)bytes;
    (void)length;
    *kept = last.is_lost;
    return 0;
}

int __wrap_clock_gettime(clockid_t clock, struct timespec *now)
{
    (void)clock;
    now->tv_sec = now_ms / 1000;
    now->tv_nsec = now_ms % 1000 * 1000000;
    return 0;
}
