/* The bus of the stand-in: the device's clock, its enumerations, and the fates of transfers. */
#include "bus.h"
#include "abi.h"
#include "fates.h"
#include "keep.h"
#include "log.h"
#include "model.h"
#include "settings.h"

#include <stdlib.h>
#include <string.h>
#include <time.h>
#include <unistd.h>

#define BOUND 100000  /* maximum transfers of a run; more mean an endless loop */
#define REST_MS 10000 /* time that passes on the device after the program's end */

static const struct model *model;
struct seen *seen = &(struct seen){0};
static unsigned transfers, idle_lists;
static uint64_t told_ns;

static uint64_t now_ns(void)
{
    struct timespec now;
    clock_gettime(CLOCK_MONOTONIC, &now);
    return (uint64_t)now.tv_sec * 1000000000u + (uint64_t)now.tv_nsec;
}

uint64_t bus_ms(void)
{
    return now_ns() / 1000000;
}

/* Enumerates the device anew: an old handle gets no more answers, and the device is missing in as many lists as USB_AWAY says. */
static void enumerate(void)
{
    seen->generation++;
    seen->setting = 0;
    seen->away = settings.away;
}

/* Returns true if the device is on the bus. A device in an application without USB is not. */
static bool is_there_now(void)
{
    return model->is_there() && (settings.app_has_usb || !model->is_app());
}

static void look(void)
{
    bool is_app = model->is_app(), is_there = is_there_now();
    if (is_app != seen->is_app || is_there != seen->is_there)
        enumerate();
    seen->is_app = is_app;
    seen->is_there = is_there;
}

static void at_end(void)
{
    model->elapse(REST_MS);
    log_end(transfers, model->state(), model->code());
    keep_image(model);
    keep_write(model);
    look();
    seen->ended_ms = bus_ms();
}

static const struct model *model_of(const char *device)
{
    if (strcmp(device, "proved") == 0)
        return &proved_model;
    return strcmp(device, "uboot") == 0 ? &uboot_model : strcmp(device, "small") == 0 ? &small_model : &USB_DFUSE_MODEL;
}

void bus_make(void)
{
    model = model_of(settings.device);
    model->make();
    keep_read(model);
    seen->is_app = model->is_app();
    seen->is_there = is_there_now();
    told_ns = now_ns();
    atexit(at_end);
}

void bus_start(void)
{
    if (model != NULL)
        return;
    settings_read();
    seen->generation = 1;
    seen->away = settings.absent;
    bus_make();
}

static void elapse(uint64_t ms)
{
    model->elapse((uint32_t)ms);
    look();
}

void bus_pass_time(void)
{
    uint64_t ms = (now_ns() - told_ns) / 1000000;
    told_ns += ms * 1000000;
    if (ms > 0)
        elapse(ms);
}

/* Lets the whole timeout pass, because there is no answer. */
static int wait_in_vain(unsigned timeout)
{
    if (timeout == 0)
        fail_loudly("a transfer that is lost would be waited for without end");
    elapse(timeout);
    return USB_ERROR_TIMEOUT;
}

static int leave(void)
{
    model->power();
    seen->is_app = model->is_app();
    seen->is_there = is_there_now();
    enumerate();
    return settings.leaves_untold ? USB_ERROR_PIPE : USB_ERROR_NO_DEVICE;
}

/* Lets the device handle the transfer, once or twice. Returns the number of bytes that were transferred, or an error. */
static int handled(const uint8_t setup[8], uint8_t *data, uint16_t length, const struct fate *fate)
{
    bool is_in = (setup[0] & 0x80) != 0;
    uint8_t none[8] = {0};
    uint8_t *out = is_in ? data : none;
    const uint8_t *body = is_in ? none : data;
    int count = 0;
    if (model->is_app() && settings_leave_out(setup[1]))
        return USB_ERROR_PIPE;
    for (int times = fate->kind == FATE_TWICE ? 2 : 1; times > 0; times--)
        count = model->handle(setup, body, is_in ? 0 : length, out, is_in ? length : 0);
    if (count < 0)
        return USB_ERROR_PIPE;
    if (!is_in)
        return length;
    return fate->kind == FATE_SHORT && (unsigned)count > fate->bytes ? (int)fate->bytes : count;
}

static int meets(const struct fate *fate, const uint8_t setup[8], uint8_t *data, uint16_t length, unsigned timeout)
{
    switch (fate->kind) {
    case FATE_SWAP: seen->is_swapped = true; return leave();
    case FATE_LEAVE: return leave();
    case FATE_CUT: handled(setup, data, length, fate); return leave();
    case FATE_STALL: return USB_ERROR_PIPE;
    case FATE_LOST_OUT:
    case FATE_DEAF: return wait_in_vain(timeout);
    case FATE_LOST_BACK:
    case FATE_MUTE: {
        uint8_t unheard[65536];
        memcpy(unheard, data, length);
        handled(setup, unheard, length, fate);
        return wait_in_vain(timeout);
    }
    default: return handled(setup, data, length, fate);
    }
}

/* Waits without passing the time to the device. As in libusb, a signal does not interrupt the wait. */
static void pass_untold(unsigned ms)
{
    struct timespec left = {ms / 1000, (long)(ms % 1000) * 1000000};
    while (nanosleep(&left, &left) != 0)
        ;
    told_ns += ms * UINT64_C(1000000);
}

int bus_transfer(const uint8_t setup[8], uint8_t *data, uint16_t length, unsigned timeout)
{
    idle_lists = 0;
    uint8_t none[8] = {0}, *at = data != NULL && length > 0 ? data : none;
    if (transfers == BOUND)
        fail_loudly("%d transfers were made, and the program is not done", BOUND);
    if (!seen->is_app && settings.setting >= 0 && seen->setting != settings.setting)
        fail_loudly("a request is made in the setting %d", seen->setting);
    const struct fate *fate = fate_of(transfers);
    while (fate->kind == FATE_STUCK)
        pause();
    if (fate->kind == FATE_KILL) {
        at_end();
        _exit(137);
    }
    pass_untold(settings.slow_ms);
    int before = model->state(), answer = meets(fate, setup, at, length, timeout);
    log_transfer(transfers++, setup, at, answer, fate->kind, model->state());
    look();
    if (model->state() != before)
        told_ns = now_ns();
    return answer;
}

/* A device that is the same after the reset is in setting 0: by libusb's manual the system only tries to restore the previous setting. */
bool bus_reset(void)
{
    unsigned before = seen->generation;
    model->usb_reset();
    seen->setting = 0;
    look();
    log_reset(model->state());
    told_ns = now_ns();
    return seen->generation == before;
}

bool bus_is_deaf(void)
{
    return fate_of(transfers)->kind == FATE_DEAF;
}

void bus_set_interface(int setting)
{
    seen->setting = setting;
    log_setting(setting);
    model->set_interface();
}

/* With USB_PULL a user unplugs the device, and plugs it in again, after this many lists of devices without a transfer between them. */
bool bus_lists(void)
{
    if (settings.pull != 0 && ++idle_lists == settings.pull) {
        leave();
        log_pull(model->state());
    }
    if (!seen->is_there)
        return false;
    if (seen->away == 0)
        return true;
    seen->away--;
    return false;
}

unsigned bus_generation(void)
{
    return seen->generation;
}

bool bus_is_there(void)
{
    return seen->is_there;
}

bool bus_is_app(void)
{
    return seen->is_app;
}

const uint8_t *bus_string(unsigned number, unsigned *length)
{
    return model->string == NULL ? NULL : model->string(number, length);
}

bool bus_is_swapped(void)
{
    return seen->is_swapped;
}

uint8_t bus_interface(void)
{
    return seen->is_swapped ? settings.swapped_interface : settings.interface;
}
