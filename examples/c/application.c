/* SPDX-License-Identifier: MIT OR Apache-2.0 */
/* An application in run-time mode: it answers DETACH and leaves for its bootloader. It links no library. The program itself plays the host
 * instead of a USB stack. Each request prints the answer and the state. */
#include <stdio.h>

#include "dfu_runtime.h"

/* The numbers equal those of the application's functional descriptor. The DFU interface is interface 2. */
static struct dfu_runtime dfu = {.detach_ms = 1000, .interface_number = 2, .attributes = DFU_CAN_DNLOAD | DFU_MANIFESTATION_TOLERANT};
static uint8_t out[6];

static void request(const char *what, uint8_t kind, uint8_t number, uint16_t value, uint8_t length) {
    const uint8_t setup[8] = {kind, number, (uint8_t)value, (uint8_t)(value >> 8), 2, 0, length, 0};
    const int32_t n = dfu_runtime_handle(&dfu, setup, out);
    printf("%-10s %2d state %u\n", what, (int)n, (unsigned)dfu.state);
}

/* Handles a bus reset. A product sets a flag that its bootloader reads, and restarts; then the bootloader calls dfu_device_begin. */
static void reset(void) {
    printf("bus reset: %s\n", dfu_runtime_usb_reset(&dfu) ? "into the bootloader" : "the application goes on");
}

/* Lets `ms` milliseconds pass. With bitWillDetach the application then leaves the bus by itself. */
static void pass(uint32_t ms) {
    const int leaves = dfu_runtime_elapse(&dfu, ms);
    printf("%4u ms: %s, state %u\n", (unsigned)ms, leaves ? "into the bootloader" : "the application goes on", (unsigned)dfu.state);
}

int main(void) {
    request("GETSTATUS", 0xa1, DFU_GETSTATUS, 0, 6);
    request("DNLOAD", 0x21, DFU_DNLOAD, 0, 64);
    reset();
    request("DETACH", 0x21, DFU_DETACH, 500, 0);
    pass(499);
    pass(1);
    request("DETACH", 0x21, DFU_DETACH, 500, 0);
    request("GETSTATUS", 0xa1, DFU_GETSTATUS, 0, 6);
    reset();
    dfu.attributes |= DFU_WILL_DETACH;
    request("DETACH", 0x21, DFU_DETACH, 500, 0);
    pass(1);
    return 0;
}
