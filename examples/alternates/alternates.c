/* SPDX-License-Identifier: MIT OR Apache-2.0 */
/* Passes requests of the DFU class to the chosen setting, and serves SET_INTERFACE, which chooses a setting. */
#include "alternates.h"

#include <string.h>

#include "raw.h"

enum { GET_INTERFACE = 10, SET_INTERFACE = 11 };

static uint8_t chosen, is_configured;

static int32_t begin(unsigned number) {
    const struct setting *setting = &setting_table[number];
    if (setting->raw == NULL)
        return dfu_device_begin(setting->device);
    raw_begin(setting->raw);
    return 0;
}

/* Chooses a setting. The pending work of the old setting is done first, because an image whose dfuMANIFEST was answered must become active.
 * If the new setting refuses to begin, the old one stays chosen. */
static int32_t choose(unsigned number) {
    alternates_answered();
    const int32_t n = begin(number);
    if (n == 0)
        chosen = (uint8_t)number;
    return n;
}

int32_t alternates_power_on(void) {
    static const uint8_t none[1];
    for (unsigned i = 0; i < SETTINGS; i++)
        if (setting_table[i].device != NULL)
            (void)dfu_device_power_on_or_format(setting_table[i].device, none, 0);
    chosen = is_configured = 0;
    return begin(chosen);
}

/* After SET_CONFIGURATION setting 0 is chosen (USB 2.0, 9.6.5). */
void alternates_configured(uint8_t value) {
    is_configured = value != 0;
    (void)choose(0);
    chosen = 0;
}

/* Serves SET_INTERFACE and GET_INTERFACE (USB 2.0, 9.4.10 and 9.4.4). Both are errors before the device is configured. */
static int32_t standard(const uint8_t setup[8], uint8_t *data) {
    const unsigned value = setup[2] | (unsigned)setup[3] << 8;
    if (!is_configured || setup[4] != INTERFACE || setup[5] != 0 || setup[7] != 0)
        return DFU_STALL;
    if (setup[0] == 0x01 && setup[1] == SET_INTERFACE && value < SETTINGS && setup[6] == 0)
        return choose(value);
    if (setup[0] != 0x81 || setup[1] != GET_INTERFACE || value != 0 || setup[6] != 1)
        return DFU_STALL;
    data[0] = chosen;
    return 1;
}

int32_t alternates_request(const uint8_t setup[8], uint8_t *data, size_t room) {
    if (room < BLOCK)
        return DFU_NO_ROOM;
    if ((setup[0] & 0x60) == 0)
        return standard(setup, data);
    const struct setting *setting = &setting_table[chosen];
    return setting->raw != NULL ? raw_serve(setting->raw, setup, data, data) : dfu_device_serve(setting->device, setup, data, data, room);
}

void alternates_answered(void) {
    if (setting_table[chosen].device != NULL)
        (void)dfu_device_work(setting_table[chosen].device);
}

int alternates_reset(void) {
    const struct setting *setting = &setting_table[chosen];
    if (!is_configured)
        return 0;
    is_configured = 0;
    if (setting->raw != NULL)
        raw_reset(setting->raw);
    else
        (void)dfu_device_reset(setting->device);
    return 1;
}

int32_t alternates_state(void) {
    const struct setting *setting = &setting_table[chosen];
    return setting->raw != NULL ? setting->raw->state : dfu_device_state(setting->device);
}

int32_t alternates_code(void) {
    const struct setting *setting = &setting_table[chosen];
    return setting->raw != NULL ? setting->raw->status : dfu_device_code(setting->device);
}

void alternates_describe(uint8_t out[CONFIGURATION]) {
    const uint8_t whole[9] = {9, 2, CONFIGURATION, 0, 1, 1, 0, 0x80, 50};
    memcpy(out, whole, sizeof whole);
    for (uint8_t i = 0; i < SETTINGS; i++) {
        const uint8_t one[9] = {9, 4, INTERFACE, i, 0, 0xfe, 1, 2, (uint8_t)(FIRST_NAME + i)};
        memcpy(out + 9 + 9 * i, one, sizeof one);
    }
    (void)dfu_device_functional(&shared_config, out + 9 + 9 * SETTINGS);
}
