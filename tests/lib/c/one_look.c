/* Measures which share of its images a start reads. Only one page of the mapped flash is readable at a time, and each change to another
 * page of data is counted, so a pass over an image counts each of its pages once. A start of docs/PORTING.md with a run area reads one and
 * a half times the bytes of both images, with a trial or without: dfu_trial_look reads both, and the comparison reads one. A start with the
 * standing of an earlier dfu_trial_look reads none, and must start the same image as a start that calls dfu_trial_look. This is tried for
 * each pair of moments of a session: the standing of one with the flash of the other. The session has downloads, confirmations and ends of
 * trials, and its moments are in the middle of operations and after them. */
#define _GNU_SOURCE
#include <signal.h>
#include <stdio.h>
#include <stdlib.h>
#include <string.h>
#include <sys/mman.h>
#include <unistd.h>

#include "dfu_install.h"
#include "dfu_trial.h"

enum { PAGE = 4096, PAGES = 16, CAPACITY = PAGES * PAGE, SLOT = 2 * PAGE + CAPACITY, SIZE = 2 * SLOT, TRANSFER = 4096, MOMENTS = 400 };
static struct dfu_config config = {.version = DFU_VERSION, .device = 0x0100, .product = 1, .vendor = 0x1209, .detach_ms = 255,
    .transfer = TRANSFER, .attributes = 7, .least = 1, .unit = 16, .sector = PAGE};
static uint8_t *part, *entered, run[CAPACITY], block[DFU_BLOCK_SIZE(TRANSFER, 16)], out[TRANSFER], image[CAPACITY];
static long entries, checks;
static int wrong;

static void expect(const char *what, int holds)
{
    checks++;
    if (!holds && wrong++ < 10)
        printf("one_look: %s\n", what);
}

/* Handles a read of another page: makes that page readable, and the previous one unreadable. */
static void on_fault(int number, siginfo_t *info, void *context)
{
    uint8_t *const page = (uint8_t *)((uintptr_t)info->si_addr & ~(uintptr_t)(PAGE - 1));
    (void)number, (void)context;
    if (page < part || page >= part + SIZE || (entered != NULL && mprotect(entered, PAGE, PROT_NONE) != 0)
        || mprotect(page, PAGE, PROT_READ | PROT_WRITE) != 0)
        _exit(3);
    entered = page;
    entries += (page - part) % SLOT >= 2 * PAGE;
}

static void count_from_here(void)
{
    entered = NULL;
    entries = 0;
    if (mprotect(part, SIZE, PROT_NONE) != 0)
        exit(3);
}

static long counted(void)
{
    if (mprotect(part, SIZE, PROT_READ | PROT_WRITE) != 0)
        exit(3);
    return entries;
}

/* Contents of the flash at each moment of the session: in the middle of an operation, and after it. */
static uint8_t *moments[MOMENTS];
static struct dfu_standing standings[MOMENTS];
static int has[MOMENTS], count, is_kept;
static struct dfu_device device;
static struct dfu_trial trial;

static void keep(void)
{
    if (!is_kept)
        return;
    if (count == MOMENTS || (moments[count] = malloc(SIZE)) == NULL)
        exit(3);
    memcpy(moments[count], part, SIZE);
    has[count] = dfu_trial_look(&trial, &standings[count]) == 0;
    count++;
}

static int erase(void *own, uint32_t at, uint32_t length)
{
    (void)own;
    memset(part + at, 0xff, length / 2);
    keep();
    memset(part + at, 0xff, length);
    keep();
    return 0;
}

static int program(void *own, uint32_t at, const uint8_t *bytes, uint32_t length)
{
    (void)own;
    const int is_seldom = at % SLOT < 2 * PAGE || at % 8192 == 0; /* some of the operations on data are enough */
    memcpy(part + at, bytes, length / 2);
    if (is_seldom)
        keep();
    memcpy(part + at, bytes, length);
    if (is_seldom)
        keep();
    return 0;
}

static int copy_erase(void *own, uint32_t at, uint32_t length)
{
    (void)own;
    memset(run + at, 0xff, length);
    return 0;
}

static int copy_program(void *own, uint32_t at, const uint8_t *bytes, uint32_t length)
{
    (void)own;
    memcpy(run + at, bytes, length);
    return 0;
}

static const struct dfu_driver driver = {NULL, erase, program}, run_driver = {NULL, copy_erase, copy_program};

static void request(uint8_t kind, uint8_t what, const uint8_t *body, uint32_t length, uint32_t value)
{
    const uint8_t setup[8] = {kind, what, (uint8_t)value, (uint8_t)(value >> 8), 0, 0, (uint8_t)length, (uint8_t)(length >> 8)};
    expect("a download goes on", dfu_trial_transfer(&trial, &device, setup) == 0
                                     && dfu_device_serve(&device, setup, body, out, sizeof out) >= 0);
}

static void install(uint8_t first)
{
    expect("the device begins", dfu_device_begin(&device) == 0);
    for (size_t i = 0; i < sizeof image; i++)
        image[i] = (uint8_t)(first + i + i / 256);
    for (uint32_t i = 0; i < CAPACITY / TRANSFER; i++) {
        request(0x21, DFU_DNLOAD, image + i * TRANSFER, TRANSFER, i);
        request(0xa1, DFU_GETSTATUS, NULL, 6, 0);
        request(0xa1, DFU_GETSTATUS, NULL, 6, 0);
    }
    request(0x21, DFU_DNLOAD, NULL, 0, CAPACITY / TRANSFER);
    request(0xa1, DFU_GETSTATUS, NULL, 6, 0);
    expect("the image is put in place", dfu_device_work(&device) == 0);
}

static int settles(const struct dfu_place *place)
{
    struct dfu_install area = {.run = run, .size = sizeof run, .area = {PAGE, DFU_NOWHERE}, .driver = &run_driver};
    return dfu_install_settle(&area, part + place->at, place->length) == 0;
}

/* The starts of docs/PORTING.md, without trials and with them. */
static int start_plain(struct dfu_place *place)
{
    return dfu_device_image(&device, place) == 0 && settles(place);
}

static int start_trial(struct dfu_place *place)
{
    struct dfu_standing standing;
    return dfu_trial_look(&trial, &standing) == 0 && settles(&standing.active) && dfu_trial_boot_from(&trial, &standing, place) == 0
           && place->at == standing.active.at;
}

/* Checks how many images each kind of start reads. A comparison with the run area counts as one. */
static void try_counts(const char *when, long plain, long on_trial)
{
    struct dfu_standing standing;
    struct dfu_place place;
    expect("the run area holds the image", start_plain(&place));
    count_from_here();
    const int is_plain = start_plain(&place);
    const long plain_pages = counted();
    count_from_here();
    const int is_trial = start_trial(&place);
    const long trial_pages = counted();
    count_from_here();
    const int32_t n = dfu_trial_look(&trial, &standing);
    const long look_pages = counted();
    count_from_here();
    const int32_t m = dfu_trial_boot_from(&trial, &standing, &place);
    const long boot_pages = counted();
    printf("%s: starts read %ld and %ld pages of data, a look %ld, a boot by it %ld\n", when, plain_pages, trial_pages, look_pages,
           boot_pages);
    expect("it starts", is_plain && is_trial && n == 0 && m == 0);
    expect("a start reads each image once, and the compare one", plain_pages == plain * PAGES && trial_pages == on_trial * PAGES);
    expect("a look reads each image once", look_pages == (plain - 1) * PAGES);
    expect("a boot by it reads none", boot_pages == 0);
}

/* Compares a start that reads the images with one that uses this standing: results, operations and places must be equal. */
static void try_same(const struct dfu_standing *standing)
{
    struct dfu_ask asks[2];
    struct dfu_starting starts[2];
    memset(asks, 0x11, sizeof asks);
    memset(starts, 0x11, sizeof starts);
    const int32_t n = dfu_trial_start(&trial, &asks[0], &starts[0]);
    const int32_t m = dfu_trial_start_from(&trial, standing, &asks[1], &starts[1]);
    expect("another number by a standing", n == m);
    expect("another operation by a standing", memcmp(&asks[0], &asks[1], sizeof asks[0]) == 0);
    expect("another start by a standing", memcmp(&starts[0], &starts[1], sizeof starts[0]) == 0);
}

static void try_moments(void)
{
    struct dfu_standing none;
    memset(&none, 0x55, sizeof none);
    is_kept = 0;
    for (int i = 0; i < count; i++) {
        memcpy(part, moments[i], SIZE);
        try_same(&none);
        for (int j = 0; j < count; j++)
            if (has[j] && (j == 0 || memcmp(&standings[j], &standings[j - 1], sizeof none) != 0))
                try_same(&standings[j]);
    }
}

int main(void)
{
    struct sigaction action = {.sa_flags = SA_SIGINFO};
    struct dfu_place place;
    action.sa_sigaction = on_fault;
    part = mmap(NULL, SIZE, PROT_READ | PROT_WRITE, MAP_PRIVATE | MAP_ANONYMOUS, -1, 0);
    if (part == MAP_FAILED || sysconf(_SC_PAGESIZE) != PAGE || sigaction(SIGSEGV, &action, NULL) != 0)
        return 3;
    device = (struct dfu_device){.config = &config, .flash = part, .size = SIZE, .block = block, .most = sizeof block, .driver = &driver};
    trial = (struct dfu_trial){.flash = part, .size = SIZE, .driver = &driver, .tries = {16, PAGE, 4}};
    memset(image, 0x5a, sizeof image);
    expect("a first image", dfu_trial_format(&trial, &device, image, sizeof image) == 0);
    try_counts("one image", 2, 2);
    is_kept = 1;
    install(1);
    is_kept = 0;
    try_counts("on trial", 3, 3);
    is_kept = 1;
    expect("a start", dfu_trial_boot(&trial, &place) == 0);
    expect("a confirmation", dfu_trial_accept(&trial, place.at) == 0);
    is_kept = 0;
    try_counts("confirmed", 3, 3);
    is_kept = 1;
    install(2);
    for (int i = 0; i < 5; i++)
        expect("a start", dfu_trial_boot(&trial, &place) == 0);
    install(3);
    expect("an end", dfu_trial_give_up(&trial) == 0);
    try_moments();
    printf("one_look: %d moments, %ld checks, %d wrong\n", count, checks, wrong);
    return wrong != 0;
}
