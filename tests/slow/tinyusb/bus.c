#include "bus.h"
#include "board.h"
#include "dfu_tinyusb.h"
#include "device/dcd.h"
#include <stdio.h>
#include <stdlib.h>
#include <string.h>

enum { OUT, IN, PACKET = CFG_TUD_ENDPOINT0_SIZE };
static struct {
    bool is_armed, is_stalled;
    uint8_t *bytes;
    uint16_t length;
} ends[2];
static uint32_t clock_ms;
bool bus_is_late;
unsigned bus_packets;
static bool is_owed; /* the report that a status stage to the host has ended is pending */

static void die(const char *why)
{
    printf("# wrong: %s\n", why);
    exit(1);
}

static void post(const dcd_event_t *event)
{
    dcd_event_handler(event, true);
}

static void post_setup(const uint8_t setup[8])
{
    dcd_event_t event = {.event_id = DCD_EVENT_SETUP_RECEIVED};
    memcpy(&event.setup_received, setup, 8);
    memset(ends, 0, sizeof ends); /* a setup ends pending transfers, and a stall */
    post(&event);
    if (is_owed)
        dcd_event_xfer_complete(0, 0x80, 0, XFER_RESULT_SUCCESS, true);
    is_owed = false;
}

static void complete(uint8_t endpoint, unsigned length)
{
    dcd_event_xfer_complete(0, endpoint, length, XFER_RESULT_SUCCESS, true);
    tud_task();
}

/* Returns 0 if the controller has a transfer in this direction, BUS_STALL if it stalls, or BUS_HANGS if it would never answer. */
static int waits(int way)
{
    return ends[way].is_stalled ? BUS_STALL : ends[way].is_armed ? 0 : BUS_HANGS;
}

static int status(int way, enum stop stop, int answer)
{
    const int now = waits(way);
    if (now != 0)
        return now;
    if (ends[way].length != 0)
        die("a status stage with bytes");
    if (stop == BEFORE_STATUS)
        return BUS_NOTHING;
    ends[way].is_armed = false;
    if (bus_is_late && rand() % 2 == 0)
        is_owed = way == IN;
    else
        complete(way == IN ? 0x80 : 0, 0);
    return answer;
}

/* Returns true if the request breaks off in its data stage after this many packets: after bus_packets, or at random if bus_packets is 0. */
static bool breaks_off(enum stop stop, unsigned packets)
{
    return stop == WITHIN_DATA && (bus_packets == 0 ? rand() % 2 == 0 : packets == bus_packets);
}

static int read_data(unsigned wanted, uint8_t *in, enum stop stop)
{
    unsigned got = 0, length = PACKET;
    while (got < wanted && length == PACKET) {
        const int now = waits(IN);
        if (now != 0)
            return now;
        length = ends[IN].length;
        if (length > PACKET || length > wanted - got)
            die("more bytes than were asked for");
        if (length > 0)
            memcpy(in + got, ends[IN].bytes, length);
        got += length;
        ends[IN].is_armed = false;
        if (breaks_off(stop, (got + PACKET - 1) / PACKET))
            return BUS_NOTHING;
        complete(0x80, length);
    }
    return status(OUT, stop, (int)got);
}

static int write_data(unsigned length, const uint8_t *body, enum stop stop)
{
    for (unsigned sent = 0; sent < length;) {
        const unsigned packet = length - sent < PACKET ? length - sent : PACKET;
        const int now = waits(OUT);
        if (now != 0)
            return now;
        if (breaks_off(stop, sent / PACKET))
            return BUS_NOTHING;
        if (ends[OUT].length != packet)
            die("another length than the host sends");
        memcpy(ends[OUT].bytes, body + sent, packet);
        ends[OUT].is_armed = false;
        complete(0, packet);
        sent += packet;
    }
    return status(IN, stop, 0);
}

int bus_request(const uint8_t setup[8], const uint8_t *body, uint8_t *in, enum stop stop)
{
    const unsigned length = setup[6] | (unsigned)setup[7] << 8;
    if (stop == TWO_SETUPS)
        post_setup(setup);
    post_setup(setup);
    if (stop == BEFORE_TASK)
        return BUS_NOTHING;
    tud_task();
    if (stop == AFTER_SETUP)
        return BUS_NOTHING;
    if (length == 0)
        return status(IN, stop, 0);
    return (setup[0] & 0x80) != 0 ? read_data(length, in, stop) : write_data(length, body, stop);
}

void bus_reset(bool is_unplugged)
{
    dcd_event_t event = {.event_id = is_unplugged ? DCD_EVENT_UNPLUGGED : DCD_EVENT_BUS_RESET};
    if (!is_unplugged)
        event.bus_reset.speed = TUSB_SPEED_HIGH;
    memset(ends, 0, sizeof ends);
    is_owed = false;
    post(&event);
    tud_task();
}

bool bus_enumerate(void)
{
    static const uint8_t setups[6][8] = {{0x80, 6, 0, 1, 0, 0, 18, 0},  {0x00, 5, 7, 0, 0, 0, 0, 0},    {0x80, 6, 0, 1, 0, 0, 18, 0},
                                         {0x80, 6, 0, 2, 0, 0, 255, 0}, {0x80, 6, 0, 15, 0, 0, 255, 0}, {0x00, 9, 1, 0, 0, 0, 0, 0}};
    uint8_t in[256];
    for (int at = 0; at < 6; at++) {
        if (at < 2)
            bus_reset(false);
        if (bus_request(setups[at], NULL, in, TO_THE_END) < 0)
            return false;
    }
    return true;
}

void bus_time(unsigned ms)
{
    clock_ms += ms;
    dfu_tinyusb_task(clock_ms);
}

/* Calls of a controller that TinyUSB needs. */
bool dcd_edpt_xfer(uint8_t rhport, uint8_t endpoint, uint8_t *buffer, uint16_t length)
{
    const int way = (endpoint & 0x80) != 0 ? IN : OUT;
    (void)rhport;
    if (length > PACKET || (length > 0 && buffer == NULL))
        die("a transfer of no buffer");
    ends[way].is_armed = true;
    ends[way].bytes = buffer;
    ends[way].length = length;
    return true;
}
void dcd_edpt_stall(uint8_t rhport, uint8_t endpoint)
{
    (void)rhport;
    ends[(endpoint & 0x80) != 0 ? IN : OUT].is_stalled = true;
}
void dcd_set_address(uint8_t rhport, uint8_t address)
{
    (void)address;
    dcd_edpt_xfer(rhport, 0x80, NULL, 0);
}
bool dcd_init(uint8_t rhport, const tusb_rhport_init_t *init)
{
    (void)rhport;
    (void)init;
    return true;
}
void dcd_int_enable(uint8_t rhport)
{
    (void)rhport;
}
void dcd_int_disable(uint8_t rhport)
{
    (void)rhport;
}
void dcd_connect(uint8_t rhport)
{
    (void)rhport;
}
void dcd_disconnect(uint8_t rhport)
{
    (void)rhport;
}
uint32_t tusb_time_millis_api(void)
{
    return clock_ms;
}
