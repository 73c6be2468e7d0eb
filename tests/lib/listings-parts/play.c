/* Runs sessions with a listing of docs/PORTING.md: a host of dfu_host.h, the bootloader, and an application that uses dfu_runtime.h. Power
 * is lost during each operation in turn. */
#define _DEFAULT_SOURCE
#include "dfu_runtime.h"
#include "listings.h"
#include <setjmp.h>
#include <stdio.h>
#include <stdlib.h>
#include <string.h>
#include <sys/mman.h>

extern uint8_t run[], slots[];
int usb_dfu_has_body(const uint8_t setup[8]);
int32_t usb_dfu_request(const uint8_t setup[8]);
void usb_dfu_answered(void);
void usb_dfu_reset(void);
extern uint8_t *const usb_dfu_data;

enum { PART = 128 * 1024, AT = 0x08000000, FIRST = 2500, SECOND = 3000, TRIES = 4 };
enum ending { NONE, RUNS, IS_OVER, LOST };

static jmp_buf out;
static uint8_t first[FIRST], second[SECOND];
static struct dfu_runtime application;
static int is_in_application, is_leaving;
static uint32_t report;
static unsigned long operations, cut_at, plays, wrong;

static void holds(int truth, const char *what)
{
    if (!truth && wrong++ < 10)
        printf("operation %lu: %s\n", cut_at, what);
}

int board_asks_for_format(void)
{
    return 1;
}

void usb_start(void)
{
}

void usb_stop(void)
{
}

void usb_poll(void)
{
    report = host_acts();
    if (report != 0)
        longjmp(out, IS_OVER);
}

void image_runs(void)
{
    longjmp(out, RUNS);
}

int is_cut(void)
{
    return ++operations == cut_at;
}

void power_fails(void)
{
    longjmp(out, LOST);
}

int32_t bus_carries(const uint8_t setup[8], const uint8_t *body, size_t length, uint8_t *answer)
{
    if (is_in_application)
        return dfu_runtime_handle(&application, setup, answer);
    if (listing_transfers(setup) != 0)
        return -1;
    if (length > 0 && usb_dfu_has_body(setup))
        memcpy(usb_dfu_data, body, length);
    const int32_t n = usb_dfu_request(setup);
    if (n > 0)
        memcpy(answer, usb_dfu_data, (size_t)n);
    usb_dfu_answered();
    return n;
}

void bus_is_reset(void)
{
    if (is_in_application)
        is_leaving = dfu_runtime_usb_reset(&application);
    else
        usb_dfu_reset();
}

void bus_waits(uint32_t ms)
{
    if (is_in_application && dfu_runtime_elapse(&application, ms))
        is_leaving = 1;
}

static void make(uint8_t *image, size_t n, uint8_t seed)
{
    const uint32_t words[2] = {0x20001000u, AT + 0x6000u + 9u};
    for (size_t i = 0; i < n; i++)
        image[i] = (uint8_t)(seed + i * 7 + i / 256);
    memcpy(image, words, sizeof words);
}

/* Returns the image at this address: 1, 2, or 0 for any other. */
static int which(const uint8_t *at, size_t length)
{
    if (length >= FIRST && memcmp(at, first, FIRST) == 0)
        return 1;
    return length >= SECOND && memcmp(at, second, SECOND) == 0 ? 2 : 0;
}

static int active(void)
{
    uint32_t at, length;
    return listing_finds(&at, &length) == 0 ? which(slots + at, length) : -1;
}

/* Starts the bootloader, and runs until an image runs, the session is over, or power is lost. */
static enum ending boots(int is_asked)
{
    volatile int asks = is_asked;
    power_goes();
    is_in_application = is_leaving = 0;
    const int how = setjmp(out);
    if (how != 0)
        return (enum ending)how;
    if (asks)
        listing_asks();
    (void)listing_main();
    return NONE;
}

/* Runs the image that the bootloader started. The image answers requests until it leaves or the session is over. */
static void answers(void)
{
    application = (struct dfu_runtime){1000, 0, 0, DFU_STATE_APP_IDLE, 0};
    is_in_application = 1;
    is_leaving = 0;
    while (report == 0 && !is_leaving)
        report = host_acts();
}

/* Runs a whole session, which begins in an application, or in a bootloader that a user selected. */
static void plays_session(int from_application)
{
    int asks = !from_application;
    for (int turns = 0; report == 0 && turns < 100; turns++) {
        const enum ending how = boots(asks);
        asks = 0;
        if (how == LOST) {
            host_hears_restart();
            asks = !from_application;
        } else if (how == RUNS) {
            answers();
            asks = is_leaving;
        } else if (how == NONE) {
            holds(0, "the bootloader gave up");
            return;
        }
    }
    holds(report != 0, "no report");
    const int now = active();
    holds(now == 1 || now == 2, "the active image is none that was offered");
    holds(!is_in_place(report) || now == 2, "the payload is not in place");
}

/* Starts the board `n` times, and notes the image that ran each time. With `confirms` image 2 confirms itself when it runs. */
static void starts(int n, int confirms, int ran[])
{
    for (int i = 0; i < n; i++) {
        ran[i] = boots(0) == RUNS ? which(run, SECOND) : -1;
        if (confirms && ran[i] == 2)
            holds(listing_confirms() == 0, "the image does not confirm itself");
    }
}

static void new_board(void)
{
    memset((void *)AT, 0xff, PART);
    power_goes();
    slots_are(slots, listing_size());
    report = 0;
    operations = 0;
}

/* Plays a listing, with a loss of power in operation `cut`, or with 0 none: the first image is formatted, a session installs the second,
 * and several starts follow. */
static void play(const char *listing, unsigned long cut)
{
    int ran[3 * TRIES];
    const int has_trials = strcmp(listing, "trials") == 0;
    plays++;
    cut_at = 0;
    new_board();
    holds(listing_formats(first, FIRST) == 0, "no first image");
    holds(active() == 1, "the first image is not active");
    operations = 0;
    cut_at = cut;
    host_begins(second, SECOND, listing_descriptor(), strcmp(listing, "plain") != 0);
    plays_session(strcmp(listing, "plain") != 0);
    const int is_new = active() == 2;
    cut_at = 0;
    if (cut == 0)
        holds(is_in_place(report), "the session failed with nothing lost");
    starts(3 * TRIES, has_trials && cut % 2 == 1, ran);
    for (int i = 0; i < 3 * TRIES; i++)
        if (!has_trials || cut % 2 == 1)
            holds(ran[i] == (is_new ? 2 : 1), "another image than the active one runs");
        else
            holds(i < 2 * TRIES || ran[i] == (active() == 2 && is_new ? 2 : 1), "no image runs for good");
}

int main(int argc, char **argv)
{
    const char *listing = argc > 1 ? argv[1] : "plain";
    if (mmap((void *)AT, PART, PROT_READ | PROT_WRITE, MAP_PRIVATE | MAP_ANONYMOUS | MAP_FIXED, -1, 0) != (void *)AT)
        return 2;
    make(first, FIRST, 3);
    make(second, SECOND, 91);
    play(listing, 0);
    const unsigned long most = operations;
    for (unsigned long cut = 1; cut <= most; cut++)
        play(listing, cut);
    printf("%s: %lu plays, %lu steps, %lu marks, %lu ends of trials, %lu out of order, %lu wrong\n", listing, plays, steps, marks, ends,
           violations, wrong);
    return violations + wrong == 0 ? 0 : 1;
}
