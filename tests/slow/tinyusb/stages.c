/* A host that breaks off, over the bus of bus.h: it breaks off each request of a whole download in each of its stages, before each possible
 * next event. After that the old or the new image must be active, and the new one only if the download was closed. No byte of a block may
 * be stored whose data stage broke off. The next host downloads a third image, and reads it back if it can. The output ends with `N passed,
 * M failed`. ATTRIBUTES in the environment sets the device's attributes, except bitWillDetach, which is 0. */
#include "bus.h"
#include "board.h"
#include "dfu_tinyusb.h"
#include <stdio.h>
#include <stdlib.h>
#include <string.h>
#include <sys/wait.h>
#include <unistd.h>

enum { BLOCK = 150, LENGTH = 320, MOST = 32 };
enum next { GETSTATUS_NEXT, RESET_NEXT, UNPLUGGED_NEXT, CONFIGURED_NEXT, NEXTS };
static const char *const stops[] = {"", "after its setup", "within its data", "before its status", "twice", "before the task"};
static const char *const nexts[] = {"a GETSTATUS", "a reset", "a plug that is pulled", "SET_CONFIGURATION"};
static struct request {
    uint8_t number;
    uint16_t value, length;
} list[MOST];
static int count, closes; /* closes: index of the request that closes the download */
static uint8_t old[100], new[LENGTH], third[LENGTH], in[BLOCK];

uint8_t board_protocol(void)
{
    return dfu_tinyusb_protocol();
}

/* Ends a child process with the text of a fault, which its parent prints. */
static void die(const char *why)
{
    fprintf(stderr, "%s\n", why);
    exit(1);
}

static void add(uint8_t number, unsigned value, unsigned length)
{
    list[count++] = (struct request){number, (uint16_t)value, (uint16_t)length};
}

/* Lists the requests of a download, and of an upload if the device supports uploads and is tolerant. */
static void make_list(void)
{
    for (unsigned at = 0, block = 0; at <= LENGTH; at += BLOCK, block++) {
        add(DFU_DNLOAD, block, LENGTH - at < BLOCK ? LENGTH - at : BLOCK);
        add(DFU_GETSTATUS, 0, 6);
        add(DFU_GETSTATUS, 0, 6);
    }
    closes = count;
    add(DFU_DNLOAD, 3, 0);
    add(DFU_GETSTATUS, 0, 6);
    if ((config.attributes & 4) == 0)
        return;
    add(DFU_GETSTATUS, 0, 6);
    for (unsigned block = 0; (config.attributes & 2) != 0 && block < 3; block++)
        add(DFU_UPLOAD, block, BLOCK);
    add(DFU_GETSTATE, 0, 1);
    add(DFU_ABORT, 0, 0);
    add(DFU_CLRSTATUS, 0, 0);
    add(DFU_CLRSTATUS, 0, 0);
}

static int ask(struct request request, const uint8_t *image, enum stop stop)
{
    const bool reads = request.number == DFU_GETSTATUS || request.number == DFU_GETSTATE || request.number == DFU_UPLOAD;
    const uint8_t setup[8] = {reads ? 0xa1 : 0x21, request.number, (uint8_t)request.value, 0, 0, 0, (uint8_t)request.length, 0};
    const uint8_t *body = request.number == DFU_DNLOAD && request.length > 0 ? image + BLOCK * request.value : NULL;
    const int answer = bus_request(setup, body, in, stop);
    if (answer == BUS_HANGS)
        die("it hangs");
    return answer;
}

/* Returns the state that GETSTATUS reports, or -1: a device that waits for a reset may stall it. */
static int status(void)
{
    return ask((struct request){DFU_GETSTATUS, 0, 6}, NULL, TO_THE_END) == 6 ? in[4] : -1;
}

static bool is_active(const uint8_t *bytes, unsigned length)
{
    struct dfu_place place;
    return dfu_device_image(&device, &place) == 0 && place.length == length && memcmp(flash + place.at, bytes, length) == 0;
}

static void restart(bool is_unplugged)
{
    if (is_unplugged)
        bus_reset(true);
    if (!bus_enumerate())
        die("it does not enumerate");
}

/* Makes the next event happen. A reset leads to run-time mode, whichever request broke off. */
static void go_on(enum next next)
{
    static const uint8_t setups[2][8] = {{0, 9, 0}, {0, 9, 1}};
    if (next == RESET_NEXT || next == UNPLUGGED_NEXT) {
        restart(next == UNPLUGGED_NEXT);
        if (dfu_device_state(&device) != DFU_STATE_APP_IDLE)
            die("a reset does not lead to run-time mode");
    }
    for (int at = 0; next == CONFIGURED_NEXT && at < 2; at++)
        if (bus_request(setups[at], NULL, in, TO_THE_END) != 0 || dfu_device_state(&device) == DFU_STATE_APP_IDLE)
            die("it takes no configuration, or takes it for a reset");
}

/* Brings the device to dfuIDLE, as a new host does. */
static void settle(void)
{
    for (int turns = 0; turns < 10; turns++) {
        const int state = status();
        bus_time(1);
        if (state == DFU_STATE_IDLE)
            return;
        if (state == DFU_STATE_ERROR)
            ask((struct request){DFU_CLRSTATUS, 0, 0}, NULL, TO_THE_END);
        else if (state == DFU_STATE_APP_IDLE)
            ask((struct request){DFU_DETACH, 1000, 0}, NULL, TO_THE_END);
        else if (state < 0 || state == DFU_STATE_APP_DETACH || state == DFU_STATE_MANIFEST || state == DFU_STATE_MANIFEST_WAIT_RESET)
            restart(false);
        else if (state != DFU_STATE_MANIFEST_SYNC && state != DFU_STATE_DNBUSY)
            ask((struct request){DFU_ABORT, 0, 0}, NULL, TO_THE_END);
    }
    die("it does not come to dfuIDLE");
}

/* Downloads as the next host: each answer must be as if nothing had happened before. */
static void download_third(void)
{
    unsigned got = 0;
    for (int at = 0; at <= closes + 1; at++)
        if (ask(list[at], third, TO_THE_END) != list[at].length * (list[at].number == DFU_GETSTATUS) ||
            (list[at].number == DFU_GETSTATUS && in[0] != 0))
            die("the next download is not taken");
    if ((config.attributes & 4) != 0 ? status() != DFU_STATE_IDLE : (restart(false), false))
        die("the next download does not end");
    if (!is_active(third, LENGTH))
        die("the next download ended, and its image is not active");
    for (int at = 0; at < count; at++)
        if (list[at].number == DFU_UPLOAD) {
            const int n = ask(list[at], NULL, TO_THE_END);
            if (n < 0 || memcmp(in, third + got, (size_t)n) != 0)
                die("the image that is read back is another one");
            got += (unsigned)n;
        }
}

static void play(int broken, enum stop stop, enum next next)
{
    int state;
    for (int at = 0; at < broken; at++)
        ask(list[at], new, TO_THE_END);
    state = dfu_device_state(&device);
    ask(list[broken], new, stop);
    if (list[broken].number == DFU_DNLOAD && list[broken].length > 0 && dfu_device_state(&device) != state &&
        (stop == AFTER_SETUP || stop == WITHIN_DATA || stop == BEFORE_TASK))
        die("a block was taken whose data stage broke off");
    go_on(next);
    if (next == GETSTATUS_NEXT && status() == DFU_STATE_IDLE && broken > closes && !is_active(new, LENGTH))
        die("it says that it is done, and the new image is not active");
    if (!is_active(old, sizeof old) && (broken < closes || !is_active(new, LENGTH)))
        die("neither image is active, or the new one too early");
    settle();
    download_third();
    if (dfu_tinyusb_refusal() != 0)
        die("the device refused");
}

static bool passes(int broken, enum stop stop, enum next next)
{
    int ended = 0;
    const pid_t child = fork();
    if (child == 0) {
        play(broken, stop, next);
        exit(0);
    }
    waitpid(child, &ended, 0);
    if (ended != 0)
        printf("row WRONG stages %02x%s: request %d, %d of %u bytes, broken off %s (%u), then %s\n", config.attributes,
               bus_is_late ? " late" : "", broken, list[broken].number, list[broken].length, stops[stop], bus_packets, nexts[next]);
    return ended == 0;
}

/* Returns the number of points at which a request can break off in this stage: after each packet, except the last one of the host. */
static unsigned places(int at, enum stop stop)
{
    const unsigned packets = (list[at].length + CFG_TUD_ENDPOINT0_SIZE - 1u) / CFG_TUD_ENDPOINT0_SIZE;
    return stop != WITHIN_DATA ? 1 : packets - (packets > 0 && list[at].number == DFU_DNLOAD);
}

int main(void)
{
    const tusb_rhport_init_t init = {.role = TUSB_ROLE_DEVICE, .speed = TUSB_SPEED_HIGH};
    unsigned passed = 0, failed = 0;
    board_set_up();
    config.attributes &= 7; /* clears bitWillDetach, so the device leaves only by a bus reset */
    make_list();
    for (unsigned at = 0; at < LENGTH; at++)
        new[at] = (uint8_t)(at * 7 + 1), third[at] = (uint8_t)(at * 5 + 3);
    memset(flash, 0xff, sizeof flash);
    if (config.transfer != BLOCK || dfu_device_format(&device, old, sizeof old) != 0 || dfu_device_begin(&device) != 0 ||
        dfu_tinyusb_start(&device) != 0 || !tusb_rhport_init(0, &init) || !bus_enumerate())
        die("no device");
    for (int at = 0; at < count * 2 * NEXTS; at++)
        for (enum stop stop = TO_THE_END; stop <= BEFORE_TASK; stop++)
            for (unsigned behind = 1; behind <= places(at / 2 / NEXTS, stop); behind++) {
                bus_packets = behind;
                bus_is_late = at / NEXTS % 2 == 1;
                fflush(stdout);
                if (passes(at / 2 / NEXTS, stop, (enum next)(at % NEXTS)))
                    passed++;
                else
                    failed++;
            }
    printf("%u passed, %u failed\n", passed, failed);
    return failed != 0;
}
