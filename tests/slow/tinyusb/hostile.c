/* A random host for the driver, over the bus of bus.h: `hostile SEED COUNT FAULTS [late]`. It prints a log for `dfu judge`, whose last line
 * begins with `# ok`. One of FAULTS requests breaks off in one of its stages; with FAULTS 0 none does. Bus resets happen at random, also
 * after a request that broke off. After each download without a fault exactly its image must be active. With FAILS in the environment one
 * of that many operations of the flash fails; with INTERFACE above 0 there is another interface. With `late`, ends of status stages are
 * reported late or not at all. */
#include "bus.h"
#include "board.h"
#include "dfu_tinyusb.h"
#include <stdio.h>
#include <stdlib.h>
#include <string.h>

enum { MOST = 65536 };
static uint8_t body[MOST], in[MOST], sent[CAPACITY], stood[CAPACITY];
static unsigned sent_length, stood_length, number, resets, breaks, images;
static bool is_clean; /* true while the current download, from its first block on, has no fault */
static int state;

uint8_t board_protocol(void)
{
    return dfu_tinyusb_protocol();
}

static void die(const char *why)
{
    printf("# wrong: %s\n", why);
    exit(1);
}

static unsigned any(unsigned below)
{
    return (unsigned)rand() % below;
}

static void print_hex(const uint8_t *bytes, unsigned length)
{
    for (unsigned at = 0; at < length; at++)
        printf("%02x", bytes[at]);
}

/* Returns true if the active image consists of these bytes. */
static bool is_active(const uint8_t *bytes, unsigned length)
{
    struct dfu_place place;
    return dfu_device_image(&device, &place) == 0 && place.length == length && memcmp(flash + place.at, bytes, length) == 0;
}

/* Chooses a request: mostly the next one of a download, or the way out of an error; else a random one. */
static unsigned choose(uint8_t setup[8])
{
    static const uint8_t kinds[16] = {1, 1, 1, 1, 3, 3, 3, 3, 5, 2, 2, 4, 4, 6, 0, 7};
    const bool is_guided = any(16) != 0;
    unsigned kind = kinds[any(16)], length, value = 0;
    if (is_guided)
        kind = state == 0 ? 0 : state == 10 ? 4 : state == 2 || state == 5 ? 1 : state == 9 ? 6 : 3;
    length = kind == 3 ? (any(20) == 0 ? any(8) : 6) : kind == 5 ? 1 : 0;
    if (kind == 1) {
        length = any(6) == 0 ? 0 : any(40) == 0 ? config.transfer + 1u : 1 + any(config.transfer);
        if (state == 2 && is_guided)
            length = config.transfer;
        number = state == 2 ? 0 : number + 1;
        value = number;
    } else if (kind == 2) {
        length = any(8) == 0 ? config.transfer + 1u : any(8) == 0 ? 0 : 1 + any(config.transfer);
        value = any(4);
    } else if (kind == 0) {
        value = 1000;
    }
    setup[0] = kind == 2 || kind == 3 || kind == 5 || (kind == 7 && any(2) == 0) ? 0xa1 : 0x21;
    setup[1] = (uint8_t)kind;
    setup[2] = (uint8_t)value, setup[3] = (uint8_t)(value >> 8);
    setup[4] = config.interface_number, setup[5] = any(200) == 0;
    setup[6] = (uint8_t)length, setup[7] = (uint8_t)(length >> 8);
    if (any(300) == 0) { /* random bytes */
        for (unsigned at = 0; at < 8; at++)
            setup[at] = (uint8_t)rand();
        setup[7] &= 0x1f;
    }
    for (unsigned at = 0; at < MOST / 8; at++)
        body[at] = (uint8_t)rand();
    return setup[6] | (unsigned)setup[7] << 8;
}

/* Updates the state of the current download after the answer to a request. */
static void follow(const uint8_t setup[8], unsigned length, int answer)
{
    const bool was_closed = state == 6 || state == 7;
    if (answer == BUS_NOTHING) {
        is_clean = false;
        state = 3; /* unknown: the next request is GETSTATUS */
    } else if (answer == BUS_STALL) {
        state = 10;
        is_clean = false;
    } else if (setup[0] == 0xa1 && (setup[1] == 3 || setup[1] == 5) && answer == (setup[1] == 3 ? 6 : 1)) {
        state = in[setup[1] == 3 ? 4 : 0];
    } else if (setup[0] == 0x21 && setup[1] == 1) {
        if (state == 2 && length > 0) {
            is_clean = true;
            sent_length = 0;
        }
        if (length > 0 && sent_length + length <= CAPACITY) {
            memcpy(sent + sent_length, body, length);
            sent_length += length;
        }
        state = length > 0 ? 3 : 6;
    } else if (setup[0] == 0x21 && setup[1] == 6) {
        is_clean = false;
        state = 2;
    } else if (setup[0] == 0x21 || (setup[0] == 0xa1 && setup[1] == 2)) {
        state = setup[1] == 4 ? 2 : setup[1] == 0 ? 1 : setup[1] == 2 ? 9 : state;
    }
    if (was_closed && state == 2 && is_clean) {
        if (!is_active(sent, sent_length))
            die("a download ended well, and another image stands");
        memcpy(stood, sent, sent_length);
        stood_length = sent_length;
        images++;
        is_clean = false;
    }
}

static void restart(void)
{
    if (state == 7 || state == 6 || !is_clean)
        stood_length = 0; /* the active image is unknown from now on */
    is_clean = false;
    puts("reset");
    resets++;
    if (any(4) == 0)
        bus_reset(true); /* unplugging counts as a reset, and the resets after it do not */
    if (!bus_enumerate())
        die("it does not enumerate");
    state = state == 1 ? 2 : 0;
}

/* Sends requests that TinyUSB itself answers: SET_CONFIGURATION with 0 and 1, and SET_INTERFACE. They are no bus resets, so a download
 * continues. */
static void configure_anew(void)
{
    const uint8_t setups[3][8] = {{0x00, 9, 0}, {0x00, 9, 1}, {0x01, 11, 0, 0, config.interface_number}};
    for (int at = 0; at < 3; at++)
        if (bus_request(setups[at], NULL, in, TO_THE_END) != 0)
            die("it takes no configuration, or no setting");
    if (config.interface_number > 0) {
        const uint8_t getstate[8] = {0xa1, 5, 0, 0, 0, 0, 1, 0};
        if (bus_request(getstate, NULL, in, TO_THE_END) != 1 || in[0] != 0x55)
            die("another interface does not answer");
    }
}

static void one(unsigned faults)
{
    uint8_t setup[8];
    const unsigned length = choose(setup);
    enum stop stop = faults > 0 && any(faults) == 0 ? (enum stop)(1 + any(4)) : TO_THE_END;
    const bool is_class = (setup[0] & 0x7f) == 0x21 && setup[4] == config.interface_number;
    int answer = bus_request(setup, body, in, stop);
    if (answer == BUS_HANGS && is_class)
        die("it hangs");
    if (stop != TO_THE_END && stop != TWO_SETUPS)
        breaks++;
    if (is_class) {
        print_hex(setup, 8);
        printf(" ");
        if (setup[0] == 0x21 && length > 0)
            print_hex(body, length);
        else
            printf("-");
        if (answer > 0) {
            printf(" ");
            print_hex(in, (unsigned)answer);
            puts("");
        } else {
            puts(answer == 0 ? " ack" : answer == BUS_STALL ? " stall" : " nothing");
        }
        follow(setup, length, answer);
    } else if (setup[0] == 0 && (setup[1] == 5 || setup[1] == 9)) {
        restart(); /* the request ended the configuration */
    }
    bus_time(any(3));
    if (any(100) == 0)
        configure_anew();
    if (state == 1 || (faults > 0 && any(faults) == 0) || (stop != TO_THE_END && any(3) == 0))
        restart();
}

int main(int count, char **words)
{
    const tusb_rhport_init_t init = {.role = TUSB_ROLE_DEVICE, .speed = TUSB_SPEED_HIGH};
    static uint8_t old[100];
    if (count < 4)
        return 2;
    srand((unsigned)atoi(words[1]));
    bus_is_late = count > 4;
    board_set_up();
    config.attributes &= 7; /* clears bitWillDetach, so the device leaves only by a bus reset */
    memset(flash, 0xff, sizeof flash);
    if (dfu_device_format(&device, old, sizeof old) != 0 || dfu_device_power_on(&device) != 0 || dfu_tinyusb_start(&device) != 0)
        die("no device");
    flash_fails = setting("FAILS", 10, 0);
    if (!tusb_rhport_init(0, &init) || !bus_enumerate())
        die("it does not enumerate");
    for (int left = atoi(words[2]); left > 0; left--)
        one((unsigned)atoi(words[3]));
    if (dfu_tinyusb_refusal() != 0)
        die("the device refused");
    printf("# ok: %u resets, %u requests broken off, %u images, %lu erases\n", resets, breaks, images, flash_erases);
    return 0;
}
