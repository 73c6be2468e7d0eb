/* Makes many random calls of the device library over plain memory: downloads and uploads that mostly follow the protocol, requests that
 * don't, losses of power between calls, odd configurations, and garbled records and flash. After each 1,000 calls it prints a digest of all
 * answers, records, buffers and flash contents so far, so that two builds of the library can be compared. Arguments: the number of calls, a
 * seed, and the offset of each buffer from an aligned address. */
#include <stdio.h>
#include <stdlib.h>
#include <string.h>

#include "../c/memory.h"

#define MOST 3000 /* bytes of an image */
#define ANSWER 4096
#define PENDING DFU_BLOCK_SIZE(ANSWER, 256)

static uint64_t dice, sum = 14695981039346656037u;
static uint8_t rooms[5][2 * (600 + MOST + 300) + 8] __attribute__((aligned(8)));
static uint8_t *medium, *out, *body, *image, *pending;
static struct dfu_config config;
static struct dfu_driver driver = DFU_MEMORY_DRIVER(NULL);
static struct dfu_device device = {.config = &config, .driver = &driver};
static uint16_t block, part;
static long refused[16], stalled, answered, placed, uploaded;

static uint32_t roll(uint32_t sides) {
    dice ^= dice << 13, dice ^= dice >> 7, dice ^= dice << 17;
    return (uint32_t)(dice >> 16) % sides;
}

static uint8_t any(void) {
    return (uint8_t)roll(256);
}

static void fill(uint8_t *bytes, size_t length) {
    for (size_t at = 0; at < length; at++)
        bytes[at] = any();
}

static void add(const void *bytes, size_t length) {
    const uint8_t *at = bytes;
    uint32_t low = (uint32_t)sum, high = (uint32_t)(sum >> 32);
    while (length--)
        low = (low ^ *at++) * 16777619u, high = high * 31u + low;
    sum = (uint64_t)high << 32 | low;
}

static int32_t count(int32_t answer) {
    if (answer == DFU_STALL)
        stalled++;
    else if (answer < 0)
        refused[-answer & 15]++;
    else
        answered++;
    add(&answer, sizeof answer);
    return answer;
}

/* Formats a new board, with a configuration that is sometimes invalid. */
static void make_board(void) {
    static const uint16_t sizes[] = {8, 64, 64, 512, ANSWER, 1, ANSWER + 1, 0}, units[] = {1, 16, 64, 256};
    size_t capacity = 1 + roll(roll(4) ? 300 : MOST);
    config.version = DFU_VERSION + (roll(64) == 0);
    config.device = (uint16_t)roll(65536), config.product = (uint16_t)roll(65536), config.vendor = (uint16_t)roll(65536);
    config.detach_ms = (uint16_t)roll(300);
    config.transfer = sizes[roll(roll(16) ? 5 : 8)];
    config.attributes = (uint8_t)(roll(4) ? 7 : roll(16));
    config.busy_ms = roll(3) ? roll(20) : 0;
    config.manifest_ms = roll(3) ? 1 + roll(20) : roll(16) ? 0 : 1u << 24;
    config.least = roll(16) ? 1 + roll(20) : roll(2) ? 0 : 1u << 24;
    config.unit = roll(32) ? units[roll(4)] : roll(300);
    config.interface_number = (uint8_t)(roll(4) ? 0 : roll(4));
    size_t gate = DFU_GATE(config.unit, 0), over = roll(16) ? capacity % (config.unit ? config.unit : 1) : 0;
    capacity = capacity > over ? capacity - over : gate;
    size_t size = 2 * (2 * gate + capacity);
    size_t length = roll((uint32_t)capacity + 1);
    fill(medium, size);
    fill(image, length);
    device.size = roll(32) ? size : size - 1;
    if (roll(32) == 0)
        length = capacity + 1;
    count(dfu_device_format(&device, image, length));
    device.size = size;
    count(dfu_device_power_on(&device));
    block = part = 0;
}

/* Makes a request. One in 200 has a random byte in its setup, and one in 100 has a random room for the answer. */
static int32_t ask(uint8_t kind, uint8_t request, uint16_t value, uint16_t length, size_t sent) {
    uint8_t setup[8] = {kind, request, (uint8_t)value, (uint8_t)(value >> 8), config.interface_number, 0,
                        (uint8_t)length, (uint8_t)(length >> 8)};
    if (roll(200) == 0) {
        uint32_t at = roll(8);
        setup[at] = any();
    }
    memset(out, 0x5a, ANSWER);
    size_t room = roll(100) ? ANSWER : roll(ANSWER + 1);
    return count(handle_in_memory(&device, setup, body, sent, out, room));
}

static int32_t reset(void) {
    block = part = 0;
    return count(dfu_device_usb_reset(&device));
}

static int32_t pass(uint32_t ms) {
    return count(elapse_in_memory(&device, ms));
}

static int32_t send_block(void) {
    uint32_t most = roll(8) ? (config.transfer ? config.transfer : 1u) : 4100;
    uint16_t length = (uint16_t)(1 + roll(most));
    fill(body, length);
    size_t sent = roll(64) ? length : roll(length + 1u);
    return ask(0x21, 1, block++, length, sent);
}

static int32_t fetch(void) {
    return ask(0xa1, 2, part++, config.transfer, 0);
}

/* Takes the next step of the protocol in this state: a request, a reset, or a wait. */
static int32_t keep_to_it(int32_t state) {
    switch (state) {
    case 0: return ask(0x21, 0, 100, 0, 0);
    case 1: case 8: return reset();
    case 2:
        block = part = 0;
        return roll(4) ? send_block() : fetch();
    case 3: case 6: return ask(0xa1, 3, 0, 6, 0);
    case 4: return pass(config.busy_ms);
    case 5: return roll(5) ? send_block() : ask(0x21, 1, block++, 0, 0);
    case 7: return pass(config.manifest_ms);
    case 9: return fetch();
    default: return ask(0x21, 4, 0, 0, 0);
    }
}

static int32_t step(int32_t state) {
    uint8_t request = (uint8_t)roll(8);
    uint16_t value = (uint16_t)roll(4), length = (uint16_t)roll(9);
    uint32_t at = roll(4) ? 0 : 1 + roll(sizeof device.record);
    switch (roll(40)) {
    case 0: return reset();
    case 1: block = part = 0; return count(dfu_device_power_on(&device));
    case 2: return pass(roll(8) ? roll(40) : (uint32_t)dice);
    case 3: return ask(0x21, request, value, 0, 0);
    case 4: return ask(0xa1, request, value, length, 0);
    case 5: return at ? (((uint8_t *)&device.record)[at - 1] = (uint8_t)(roll(2) ? roll(256) : roll(14))) : 0;
    case 6: return at ? (medium[roll((uint32_t)device.size)] ^= (uint8_t)(1u << roll(8))) : 0;
    case 7: return roll(6) ? 0 : (make_board(), 0);
    case 8: return ask(0x21, roll(2) ? 4 : 6, 0, 0, 0);
    default: return keep_to_it(state);
    }
}

static void look(int32_t answer) {
    struct dfu_place place = {1, 2};
    add(&device.record, sizeof device.record), add(pending, PENDING), add(medium, device.size);
    add(out, answer > 0 && answer <= ANSWER ? (size_t)answer : 0);
    count(dfu_device_state(&device)), count(dfu_device_code(&device));
    count(dfu_device_image(&device, &place)), add(&place, sizeof place);
}

int main(int words, char **word) {
    long calls = words > 1 ? atol(word[1]) : 10000, odd = words > 3 ? atol(word[3]) : 0;
    dice = (uint64_t)(words > 2 ? atol(word[2]) : 1) * 0x9e3779b97f4a7c15u + 1;
    medium = rooms[0] + odd, out = rooms[1] + odd, body = rooms[2] + odd, image = rooms[3] + odd, pending = rooms[4] + odd;
    driver.own = medium, device.flash = medium, device.block = pending, device.most = PENDING;
    memset(&device.record, 0xff, sizeof device.record);
    make_board();
    for (long call = 1; call <= calls; call++) {
        int32_t before = dfu_device_state(&device);
        look(step(before));
        int32_t after = dfu_device_state(&device);
        placed += before == 7 && after != 7 && after != 10;
        uploaded += before == 9 && after == 2;
        if (call % 1000 == 0 || call == calls)
            printf("%ld %08lx%08lx\n", call, (unsigned long)(sum >> 32), (unsigned long)(sum & 0xffffffff));
    }
    printf("%ld answered, %ld stalled, %ld images in place, %ld uploads; refused", answered, stalled, placed, uploaded);
    for (int why = 2; why < 16; why++)
        printf(" %ld", refused[why]);
    printf("\n");
    return answered == 0 || stalled == 0 || placed == 0 || uploaded == 0;
}
