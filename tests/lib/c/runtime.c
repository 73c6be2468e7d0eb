/* Compares dfu_runtime.h with the proved device in the two states of run-time mode: every pair of bmRequestType and bRequest in both
 * states, and random requests, times and resets. Answers, bytes, states and times must be equal, and both must leave for the bootloader at
 * the same moment. Argument: the number of random turns. With a second argument it makes only these, and prints a log for `dfu judge`. */
#include <stdio.h>
#include <stdlib.h>
#include <string.h>

#include "dfu_device_memory.h"
#include "dfu_runtime.h"

static struct dfu_config config = {DFU_VERSION, 0x0100, 1, 0x1209, 255, 8, 7, 0, 5, 10, 1, 1, 0, 0, 0};
static uint8_t medium[DFU_MEDIUM_SIZE(1, 0, 64)], block[DFU_BLOCK_SIZE(8, 1)], out[8], body[8];
static const struct dfu_driver driver = DFU_MEMORY_DRIVER(medium);
static struct dfu_device dfu = {.config = &config, .flash = medium, .size = sizeof medium, .block = block, .most = sizeof block,
                                .driver = &driver};
static struct dfu_runtime runtime;
static uint32_t dice = 1;
static long answers, stalls, left;
static int is_log;

static uint32_t roll(uint32_t sides) {
    dice = dice * 1664525u + 1013904223u;
    return (dice >> 8) % sides;
}

static void print_bytes(const uint8_t *bytes, int32_t count) {
    for (int32_t i = 0; i < count; i++)
        printf("%02x", bytes[i]);
}

/* Prints a line of the log: the setup, the body, and the answer. */
static void note(const uint8_t setup[8], int32_t n) {
    int32_t length = setup[0] == 0x21 ? setup[6] | setup[7] << 8 : 0;
    if (!is_log)
        return;
    print_bytes(setup, 8);
    printf("%s", length > 0 ? " " : " - ");
    print_bytes(body, length);
    printf("%s", length > 0 ? " " : "");
    if (n > 0)
        print_bytes(out, n);
    puts(n == DFU_STALL ? "stall" : n == 0 ? "ack" : "");
}

/* Puts the device and the application into the state after power-on, with new random settings. */
static int power(void) {
    config.attributes = (uint8_t)(roll(2) ? 7 : 15);
    config.interface_number = is_log ? 0 : (uint8_t)roll(3);
    config.detach_ms = (uint16_t)roll(40);
    memset(&runtime, 0, sizeof runtime);
    runtime.detach_ms = config.detach_ms, runtime.interface_number = config.interface_number, runtime.attributes = config.attributes;
    if (is_log)
        puts("power");
    return dfu_device_format(&dfu, body, 1) == 0 && dfu_device_power_on(&dfu) == 0;
}

static void choose(uint8_t setup[8]) {
    uint32_t what = roll(10);
    uint8_t bytes[8] = {0xa1, DFU_GETSTATUS, 0, 0, config.interface_number, 0, (uint8_t)(roll(4) ? 6 : roll(9)), 0};
    if (what < 4) {
        bytes[0] = 0x21, bytes[1] = DFU_DETACH;
        bytes[2] = (uint8_t)roll(60), bytes[3] = (uint8_t)(roll(8) == 0), bytes[6] = (uint8_t)(roll(8) == 0);
    } else if (what == 4)
        bytes[1] = DFU_GETSTATE, bytes[6] = (uint8_t)roll(3);
    else if (what == 5)
        bytes[0] = roll(2) ? 0x21 : 0xa1, bytes[1] = (uint8_t)roll(9), bytes[6] = (uint8_t)roll(9);
    if (roll(30) == 0)
        bytes[roll(2) ? 0 : 4 + roll(2)] = (uint8_t)roll(256);
    memcpy(setup, bytes, 8);
}

/* Makes a random turn. Returns 1 if device and application did the same. */
static int turn(void) {
    uint8_t setup[8], other[8] = {0}, what = (uint8_t)roll(8);
    int leaves = 0;
    if (what == 0) {
        leaves = dfu_runtime_usb_reset(&runtime);
        if (is_log)
            puts("reset");
        if (dfu_device_reset(&dfu) != 0)
            return 0;
    } else if (what < 3) {
        uint32_t ms = roll(4) ? roll(20) : roll(2) * 0xffffffffu;
        leaves = dfu_runtime_elapse(&runtime, ms);
        if (dfu_device_elapse(&dfu, ms) != 0)
            return 0;
    } else {
        choose(setup);
        memset(out, 0, sizeof out);
        int32_t n = dfu_runtime_handle(&runtime, setup, out), wanted = dfu_device_serve(&dfu, setup, body, other, sizeof other);
        *(n == DFU_STALL ? &stalls : &answers) += 1;
        note(setup, n);
        if (n != wanted || (n > 0 && memcmp(out, other, (size_t)n) != 0))
            return 0;
    }
    left += leaves;
    if (leaves)
        return dfu_device_state(&dfu) == DFU_STATE_IDLE && power();
    return dfu_device_state(&dfu) == (int32_t)runtime.state && (roll(100) != 0 || power());
}

/* Returns 1 if device and application have the same time left in appDETACH, or are not in appDETACH. */
static int same_time(void) {
    const uint32_t most = runtime.left ? runtime.left : 1;
    if (runtime.state != DFU_STATE_APP_DETACH)
        return 1;
    if (most > 1 && (dfu_device_elapse(&dfu, most - 1) != 0 || dfu_runtime_elapse(&runtime, most - 1) != 0
                     || dfu_device_state(&dfu) != DFU_STATE_APP_DETACH || runtime.state != DFU_STATE_APP_DETACH))
        return 0;
    return dfu_device_elapse(&dfu, 1) == 0 && dfu_runtime_elapse(&runtime, 1) == 0 && dfu_device_state(&dfu) == DFU_STATE_APP_IDLE
        && runtime.state == DFU_STATE_APP_IDLE;
}

/* Handles a setup in this state. In appDETACH it then lets the time run out. Returns 1 if device and application do the same. */
static int tried(const struct dfu_device *device, const struct dfu_runtime *application, const uint8_t setup[8]) {
    static const uint8_t bytes[0x200];
    uint8_t answer[6] = {0}, other[8] = {0};
    dfu = *device, runtime = *application;
    const int32_t n = dfu_runtime_handle(&runtime, setup, answer), wanted = dfu_device_serve(&dfu, setup, bytes, other, sizeof other);
    return n == wanted && (n <= 0 || memcmp(answer, other, (size_t)n) == 0) && dfu_device_state(&dfu) == (int32_t)runtime.state
        && same_time();
}

/* Tries every bmRequestType and bRequest in the current state, for this interface and others, with a few lengths and times. Returns the
 * number of setups, or 0 if one differs. */
static long every_request(void) {
    static const uint16_t values[] = {0, 1, 39, 40, 41, 0x100, 0xffff}, lengths[] = {0, 1, 5, 6, 7, 0x100, 0x106};
    static const uint16_t interfaces[] = {1, 2, 0x101};
    const struct dfu_device device = dfu;
    const struct dfu_runtime application = runtime;
    long all = 0;
    for (uint32_t kind = 0; kind < 0x10000; kind++)
        for (uint32_t i = 0; i < 3 * 7 * (kind == 0x21 ? 7 : 1); i++, all++) {
            const uint16_t value = values[i / 21], length = lengths[i / 3 % 7], index = interfaces[i % 3];
            const uint8_t setup[8] = {(uint8_t)kind, (uint8_t)(kind >> 8), (uint8_t)value, (uint8_t)(value >> 8), (uint8_t)index,
                                      (uint8_t)(index >> 8), (uint8_t)length, (uint8_t)(length >> 8)};
            if (!tried(&device, &application, setup))
                return printf("runtime: bmRequestType %02x, bRequest %02x, wValue %u, wIndex %u, wLength %u differs in state %u\n",
                              setup[0], setup[1], value, index, length, (unsigned)application.state), 0;
        }
    dfu = device, runtime = application;
    return all;
}

/* Tries every request in both states. */
static long both_states(void) {
    const uint8_t detach[8] = {0x21, DFU_DETACH, 30, 0, 1, 0, 0, 0};
    config.attributes = runtime.attributes = 7, config.interface_number = runtime.interface_number = 1;
    config.detach_ms = runtime.detach_ms = 40;
    const long idle = dfu_device_power_on(&dfu) == 0 ? every_request() : 0;
    if (idle == 0 || dfu_runtime_handle(&runtime, detach, out) != 0 || dfu_device_serve(&dfu, detach, body, out, sizeof out) != 0)
        return 0;
    const long leaving = every_request();
    return leaving == 0 ? 0 : idle + leaving;
}

int main(int count, char **words) {
    long all = count > 1 ? atol(words[1]) : 1000;
    is_log = count > 2;
    if (!power())
        return 1;
    const long setups = is_log ? 0 : both_states();
    if (!is_log && (setups == 0 || !power()))
        return 1;
    for (long at = 0; at < all; at++)
        if (!turn())
            return printf("runtime: turn %ld differs\n", at), 1;
    printf("%s: %ld setups, %ld turns, %ld answers, %ld stalls, %ld times into the bootloader\n", is_log ? "# runtime" : "runtime", setups,
           all, answers, stalls, left);
    return left == 0;
}
