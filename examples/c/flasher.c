/* SPDX-License-Identifier: MIT OR Apache-2.0 */
/* The smallest flasher: it installs a file on a device, verifies it, and prints the report. `act` replaces a USB stack: it passes each
 * action to the device library in the same program. */
#include <stdio.h>
#include <string.h>

#include "dfu_device_memory.h"
#include "dfu_host.h"

static const struct dfu_config config = {
    .version = DFU_VERSION,
    .device = 0x0100,
    .product = 1,
    .vendor = 0x1209,
    .detach_ms = 255,
    .transfer = 64,
    .attributes = DFU_CAN_DNLOAD | DFU_CAN_UPLOAD | DFU_MANIFESTATION_TOLERANT,
    .interface_number = 0,
    .busy_ms = 5,
    .manifest_ms = 0,
    .least = 1,
    .unit = 1,
    .sector = 0,
};
static const uint8_t descriptor[9] = {9, 0x21, 7, 255, 0, 64, 0, 0x10, 1};
static const struct dfu_ids ids = {0x0100, 1, 0x1209};
static uint8_t flash[DFU_MEDIUM_SIZE(1, 0, 65536)], block[DFU_BLOCK_SIZE(64, 1)], file[65536 + 255], answer[65535];
static const struct dfu_driver driver = DFU_MEMORY_DRIVER(flash);
static struct dfu_device device = {
    .config = &config, .flash = flash, .size = sizeof flash, .block = block, .most = sizeof block, .driver = &driver};

/* Carries out one action. Returns 0, with the outcome in `seen` and the number of received bytes in `count`; or a refusal of the device
 * library. */
static int32_t act(const struct dfu_action *a, uint32_t *seen, size_t *count) {
    *count = 0;
    if (a->what == DFU_WAIT) {
        *seen = DFU_SEEN_WAIT;
        return dfu_device_work(&device);
    }
    if (a->what == DFU_RESET) {
        *seen = DFU_SEEN_RESET;
        return dfu_device_reset(&device);
    }
    int32_t sent = dfu_device_serve(&device, a->setup, file + a->from, answer, sizeof answer);
    if (sent == DFU_STALL) {
        *seen = DFU_SEEN_STALL;
        return 0;
    }
    *seen = a->setup[0] & 0x80 ? DFU_SEEN_BYTES : DFU_SEEN_ACK;
    *count = sent > 0 ? (size_t)sent : 0;
    return sent < 0 ? sent : 0;
}

int main(int words, char **word) {
    if (dfu_host_version() != DFU_VERSION || dfu_core_version() != DFU_VERSION)
        return 2;
    FILE *in = words == 2 ? fopen(word[1], "rb") : NULL;
    if (!in)
        return 2;
    size_t length = fread(file, 1, sizeof file, in);
    fclose(in);

    struct dfu_file said;
    struct dfu_session session;
    struct dfu_action a = {0};
    uint8_t name[16];
    int steps = 0;
    int32_t refusal = dfu_device_format(&device, (const uint8_t *)"", 1);
    if (refusal == 0)
        refusal = dfu_device_power_on(&device);
    if (refusal == 0)
        refusal = dfu_host_file(file, length, &said);
    if (refusal == 0)
        refusal = dfu_host_verified(&session, file, length, descriptor, sizeof descriptor, &ids, 100000, 3);
    while (refusal == 0 && (refusal = dfu_host_next(&session, file, said.payload, &a)) == 0 && a.what != DFU_DONE) {
        uint32_t seen;
        size_t count;
        refusal = act(&a, &seen, &count);
        if (refusal == 0)
            refusal = dfu_host_take(&session, file, said.payload, name, 0, seen, answer, count);
        steps++;
    }
    if (refusal != 0) {
        printf("refused %d\n", (int)refusal);
        return 1;
    }
    int32_t letters = dfu_host_name(a.value, name, sizeof name);
    printf("%.*s after %d actions\n", (int)letters, (const char *)name, steps);
    return a.value == DFU_VERIFIED ? 0 : 1;
}
