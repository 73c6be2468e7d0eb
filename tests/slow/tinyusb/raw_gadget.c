/* A TinyUSB controller over Linux's raw-gadget, which reports resets from Linux 6.11 on. It has only endpoint 0. A thread replaces the
 * interrupt.
 *
 * raw-gadget transfers a whole data stage at once, and completes the status stage by itself, so TinyUSB's packets are gathered. If the host
 * sends data, the status stage ends when the data is read, so a stall must come before that. With NO_ACK in the environment the end of the
 * status stage is not reported after data that the host read, as on controllers that lose it if the next setup has already arrived. With
 * FULL=1 it has full speed. */
#define _GNU_SOURCE
#include "board.h"
#include "device/dcd.h"
#include "device/usbd_pvt.h"
#include <errno.h>
#include <fcntl.h>
#include <linux/usb/ch9.h>
#include <linux/usb/raw_gadget.h>
#include <pthread.h>
#include <signal.h>
#include <stdio.h>
#include <stdlib.h>
#include <string.h>
#include <sys/ioctl.h>
#include <unistd.h>

enum { RAW_SUSPEND = 3, RAW_RESUME = 4, RAW_RESET = 5, RAW_DISCONNECT = 6 }; /* not in the header of Debian 12 */

static pthread_mutex_t interrupts = PTHREAD_MUTEX_INITIALIZER, ep0 = PTHREAD_MUTEX_INITIALIZER;
static pthread_cond_t is_free = PTHREAD_COND_INITIALIZER;
static bool is_off, is_read, is_leaving;
static bool is_busy;    /* the current request is not over */
static bool is_aborted; /* a reset ended the request, but TinyUSB has not handled the reset: its calls for the request have no effect */
static struct usb_ctrlrequest now;
static uint32_t gathered;
static struct {
    struct usb_raw_ep_io head;
    uint8_t bytes[65536 + 64];
} io;
static int gadget = -1;
static pthread_t thread;

static void on_signal(int number)
{
    (void)number;
}

static void post(dcd_eventid_t kind, const struct usb_ctrlrequest *setup)
{
    dcd_event_t event = {.rhport = 0, .event_id = (uint8_t)kind};
    if (kind == DCD_EVENT_BUS_RESET)
        event.bus_reset.speed = setting("FULL", 10, 0) != 0 ? TUSB_SPEED_FULL : TUSB_SPEED_HIGH;
    if (setup != NULL)
        memcpy(&event.setup_received, setup, 8);
    pthread_mutex_lock(&interrupts);
    dcd_event_handler(&event, true);
    pthread_mutex_unlock(&interrupts);
    board_wake();
}

static void end_request(void)
{
    pthread_mutex_lock(&ep0);
    is_busy = is_aborted;
    pthread_cond_broadcast(&is_free);
    pthread_mutex_unlock(&ep0);
}

static void end_reset(void *nothing)
{
    (void)nothing;
    is_aborted = false;
    end_request();
}

/* Stalls a pending request, although the host no longer waits: raw-gadget would stall all others as long as one is pending. */
static void begin_reset(bool is_unplugged)
{
    board_log(is_unplugged ? "disconnect" : "reset");
    pthread_mutex_lock(&ep0);
    is_aborted = is_busy;
    if (is_busy)
        ioctl(gadget, USB_RAW_IOCTL_EP0_STALL, 0);
    pthread_mutex_unlock(&ep0);
    post(is_unplugged ? DCD_EVENT_UNPLUGGED : DCD_EVENT_BUS_RESET, NULL);
    pthread_mutex_lock(&interrupts);
    usbd_defer_func(end_reset, NULL, true);
    pthread_mutex_unlock(&interrupts);
}

/* Delays the next request until the other thread has ended the previous one. That thread makes a call for each stage, and the kernel ends
 * the last call with an error only after the host has continued. */
static void begin_request(const struct usb_ctrlrequest *setup)
{
    pthread_mutex_lock(&ep0);
    while (is_busy && !__atomic_load_n(&is_leaving, __ATOMIC_SEQ_CST))
        pthread_cond_wait(&is_free, &ep0);
    now = *setup;
    is_busy = true;
    is_read = false;
    gathered = 0;
    pthread_mutex_unlock(&ep0);
    board_log("setup %02x %02x %04x %04x %04x", now.bRequestType, now.bRequest, now.wValue, now.wIndex, now.wLength);
    post(DCD_EVENT_SETUP_RECEIVED, setup);
}

static void *interrupt(void *nothing)
{
    while (!__atomic_load_n(&is_leaving, __ATOMIC_SEQ_CST)) {
        struct {
            struct usb_raw_event head;
            struct usb_ctrlrequest setup;
        } event = {.head = {.length = sizeof event.setup}};
        if (ioctl(gadget, USB_RAW_IOCTL_EVENT_FETCH, &event) != 0) {
            if (errno == EINTR)
                continue;
            break;
        }
        switch ((int)event.head.type) {
        case USB_RAW_EVENT_CONTROL: begin_request(&event.setup); break;
        case RAW_RESET: begin_reset(false); break;
        case RAW_DISCONNECT: begin_reset(true); break;
        case RAW_SUSPEND: post(DCD_EVENT_SUSPEND, NULL); break;
        case RAW_RESUME: post(DCD_EVENT_RESUME, NULL); break;
        default: break;
        }
    }
    return nothing;
}

void dcd_connect(uint8_t rhport)
{
    struct usb_raw_init init = {.speed = setting("FULL", 10, 0) != 0 ? USB_SPEED_FULL : USB_SPEED_HIGH};
    struct sigaction action = {.sa_handler = on_signal};
    (void)rhport;
    sigaction(SIGUSR1, &action, NULL);
    strcpy((char *)init.device_name, "dummy_udc.0");
    strcpy((char *)init.driver_name, "dummy_udc");
    __atomic_store_n(&is_leaving, false, __ATOMIC_SEQ_CST);
    is_busy = is_aborted = false;
    gadget = open("/dev/raw-gadget", O_RDWR | O_CLOEXEC);
    if (gadget < 0 || ioctl(gadget, USB_RAW_IOCTL_INIT, &init) != 0 || ioctl(gadget, USB_RAW_IOCTL_RUN, 0) != 0
        || pthread_create(&thread, NULL, interrupt, NULL) != 0) {
        perror("raw-gadget");
        exit(1);
    }
    board_log("connected");
}

void dcd_disconnect(uint8_t rhport)
{
    (void)rhport;
    __atomic_store_n(&is_leaving, true, __ATOMIC_SEQ_CST);
    end_request();
    while (pthread_tryjoin_np(thread, NULL) != 0) {
        pthread_kill(thread, SIGUSR1);
        usleep(1000);
    }
    close(gadget);
    board_log("left");
}

void dcd_int_disable(uint8_t rhport)
{
    (void)rhport;
    pthread_mutex_lock(&interrupts);
    is_off = true;
}

void dcd_int_enable(uint8_t rhport)
{
    (void)rhport;
    if (is_off) {
        is_off = false;
        pthread_mutex_unlock(&interrupts);
    }
}

void dcd_edpt_stall(uint8_t rhport, uint8_t endpoint)
{
    (void)rhport;
    if ((endpoint & 0x7f) != 0 || !is_busy || is_aborted)
        return;
    if (is_read) {
        board_log("TOO LATE a stall: the host was told that its data stage is taken");
    } else {
        board_log("stall");
        ioctl(gadget, USB_RAW_IOCTL_EP0_STALL, 0);
    }
    end_request();
}

/* Handles a packet to the host. The last one sends all of them. */
static int gather_in(const uint8_t *packet, uint16_t length)
{
    int count = 0;
    memcpy(io.bytes + gathered, packet, length);
    gathered += length;
    if (gathered == now.wLength || length < CFG_TUD_ENDPOINT0_SIZE) {
        io.head = (struct usb_raw_ep_io){.flags = gathered < now.wLength ? USB_RAW_IO_FLAGS_ZERO : 0, .length = gathered};
        count = ioctl(gadget, USB_RAW_IOCTL_EP0_WRITE, &io);
        board_log(count < 0 ? "in failed %d" : "in %d", count < 0 ? errno : count);
    }
    return count;
}

/* Passes the next packet of the host to TinyUSB. For the first packet it reads the whole data stage. */
static int scatter_out(uint8_t *packet, uint16_t length)
{
    int count = 0;
    if (!is_read) {
        io.head = (struct usb_raw_ep_io){.length = now.wLength};
        count = ioctl(gadget, USB_RAW_IOCTL_EP0_READ, &io);
        board_log(count < 0 ? "out failed %d" : "out %d", count < 0 ? errno : count);
        is_read = true;
    }
    if (count >= 0)
        memcpy(packet, io.bytes + gathered, length);
    gathered += length;
    return count;
}

/* Ends a request without a data stage by its status stage to the host. Before that it configures the gadget, if the host chose a
 * configuration. After a data stage the kernel has sent the status stage already. */
static int acknowledge(void)
{
    int count;
    if (now.wLength > 0)
        return 0;
    if (now.bRequestType == 0 && now.bRequest == USB_REQ_SET_CONFIGURATION && now.wValue != 0) {
        ioctl(gadget, USB_RAW_IOCTL_VBUS_DRAW, 50);
        ioctl(gadget, USB_RAW_IOCTL_CONFIGURE, 0);
    }
    io.head = (struct usb_raw_ep_io){.length = 0};
    count = ioctl(gadget, USB_RAW_IOCTL_EP0_READ, &io);
    board_log(count < 0 ? "ack failed %d" : "ack", count < 0 ? errno : 0);
    return count;
}

bool dcd_edpt_xfer(uint8_t rhport, uint8_t endpoint, uint8_t *buffer, uint16_t length)
{
    const bool is_in = (now.bRequestType & 0x80) != 0 && now.wLength > 0;
    const bool is_status = endpoint == (is_in ? 0x00 : 0x80);
    int count = 0;
    (void)rhport;
    if (!is_busy || is_aborted)
        return true;
    if (is_status && is_in)
        count = getenv("NO_ACK") != NULL ? -1 : 0;
    else if (is_status)
        count = acknowledge();
    else if (endpoint == 0x80 && is_in)
        count = gather_in(buffer, length);
    else if (endpoint == 0x00 && now.wLength > 0)
        count = scatter_out(buffer, length);
    else {
        board_log("NEVER: TinyUSB waits for a stage on endpoint %02x that does not come", endpoint);
        return true;
    }
    if (count >= 0)
        dcd_event_xfer_complete(0, endpoint, length, XFER_RESULT_SUCCESS, false);
    if (count < 0 || is_status)
        end_request(); /* must follow the event, so that the event precedes the next setup */
    return true;
}

bool dcd_init(uint8_t rhport, const tusb_rhport_init_t *init)
{
    (void)init;
    dcd_connect(rhport);
    return true;
}

/* dummy_hcd handles SET_ADDRESS itself. */
void dcd_set_address(uint8_t rhport, uint8_t address)
{
    (void)rhport;
    (void)address;
}
