/* The inline calls that pass the fields of a struct to one proved call: they must make that call once, with these fields, and return its
 * result. */
#ifndef FORWARDS_H
#define FORWARDS_H
#include "handed_in.h"

static int32_t of_device(enum call call)
{
    switch (call) {
    case POWER_ON: return dfu_device_power_on(&device);
    case BEGIN: return dfu_device_begin(&device);
    case ELAPSE: return dfu_device_elapse(&device, given.ms);
    case USB_RESET: return dfu_device_usb_reset(&device);
    case NEXT: return dfu_device_next(&device, &ask);
    case TOOK: return dfu_device_took(&device, given.failed, out, sizeof out);
    case FORMAT_START: return dfu_device_format_start(&device, image, sizeof image);
    case FORMAT_NEXT: return dfu_device_format_next(&device, image, sizeof image, &ask);
    case FORMAT_TOOK: return dfu_device_format_took(&device, image, sizeof image, given.failed);
    case OPERATION: return dfu_device_carry_out(&driver, &handed) != 0;
    default: return 1;
    }
}

static int32_t question(enum call call)
{
    switch (call) {
    case WOULD_STALL: return dfu_device_would_stall(&device, setup);
    case CLOSES: return dfu_device_closes(&device, setup);
    case TOO_LONG: return dfu_device_too_long(&device, setup);
    case REFUSE_CLOSE: return dfu_device_refuse_close(&device, setup, given.status);
    case REFUSE: return dfu_device_refuse(&device, given.status);
    case CANDIDATE: return dfu_device_candidate(&device, &place);
    case DUE: return dfu_device_due(&device);
    case STATE: return dfu_device_state(&device);
    case CODE: return dfu_device_code(&device);
    case IMAGE: return dfu_device_image(&device, &place);
    case IS_BLANK: return dfu_device_is_blank(&device);
    case FUNCTIONAL: return dfu_device_functional(&config, out);
    default: return of_device(call);
    }
}

static int32_t forward(enum call call)
{
    switch (call) {
    case TRIAL_LOOK: return dfu_trial_look(&trial, &standing);
    case TRIAL_START: return dfu_trial_start(&trial, &ask, &starting);
    case TRIAL_START_FROM: return dfu_trial_start_from(&trial, &standing, &ask, &starting);
    case TRIAL_RUNS: return dfu_trial_runs(&trial, &ask, &starting, &place);
    case TRIAL_CONFIRM: return dfu_trial_confirm(&trial, given.at, &ask);
    case TRIAL_END: return dfu_trial_end(&trial, &ask);
    case TRIAL_UPLOAD: return dfu_trial_upload(&trial, &ask);
    case INSTALL_NEXT: return dfu_install_next(&install, image, sizeof image, &ask);
    case INSTALL_TOOK: return dfu_install_took(&install, image, sizeof image, &ask, given.failed);
    case HOME_NEXT: return dfu_home_next(&device, &home, &ask);
    case HOME_TOOK: return dfu_home_took(&device, &home, &ask, given.failed);
    case HOME_MAY_DOWNLOAD: return dfu_home_may_download(&device);
    default: return question(call);
    }
}

/* Checks that the proved call wrote its results to the program's memory. */
static void is_written(enum call call, int32_t n)
{
    const struct dfu_place *wanted = call == TRIAL_RUNS ? &given.otherwise : &given.run;
    if (call == CANDIDATE || call == IMAGE || (call == TRIAL_RUNS && n == 0))
        holds(place.at == wanted->at && place.length == wanted->length, "the place is not the one that the call gave");
    if (call == TRIAL_LOOK && n == 0)
        holds(standing.active.at == given.at, "the standing is not the one that the call gave");
    if ((n == 0 && (call == NEXT || call == FORMAT_NEXT)) || n == DFU_WRITE_PENDING)
        holds(call == TOOK || call == ELAPSE || call == FORMAT_START || call == FORMAT_TOOK || memcmp(&ask, &handed, sizeof ask) == 0,
              "the operation is not the one that the call gave");
}

static void try_forwards(void)
{
    static const uint32_t numbers[] = {0, 1, 255, 256, 0x7fffffff, 0xffffffff};
    static const int32_t states[] = {0, 1, 4, 10, DFU_NO_DEVICE};
    for (enum call call = POWER_ON; call < CALLS; call++) {
        if (call == HANDLE)
            continue;
        while (next_path("forward")) {
            hand_in(1);
            given.ms = given.failed = given.at = given.status = numbers[pick(6)];
            state_now = due_now = states[pick(5)];
            follow_one(call);
            if (call == OPERATION)
                hand_out(&ask);
            const int32_t n = forward(call);
            returned(n);
            is_written(call, n);
        }
    }
}

/* dfu_device_handle passes the body with its length if the host sends, and calls too_long for a body that is too long. */
static void try_lengths(void)
{
    static const uint16_t transfers[] = {1, 64, 255, 256, 4096, 65535};
    static const uint16_t lengths[] = {0, 64, 257, 1, 63, 65, 255, 256, 512, 1024, 4095, 4096, 4097, 8192, 32768, 65534, 65535};
    while (next_path("dfu_device_handle")) {
        const int is_host_sending = pick(2) == 0;
        hand_in(1);
        config.transfer = transfers[pick(6)];
        const unsigned length = lengths[pick(is_host_sending ? sizeof lengths / sizeof lengths[0] : 3)];
        setup[0] = (uint8_t)(is_host_sending ? 0x21 : pick(256));
        setup[6] = (uint8_t)length, setup[7] = (uint8_t)(length >> 8);
        given.length = sent();
        follow_one(sent() > config.transfer ? TOO_LONG : HANDLE);
        returned(dfu_device_handle(&device, setup, body, out, sizeof out));
    }
    config.transfer = 64;
}

#endif
