/* Compares the raw area of examples/alternates with the proved device, over the same requests: each answer, state and code must be equal.
 * The only difference is a block after one that does not fill whole units, which the raw area refuses. */
#include "alternates.h"
#include "dfu_device_memory.h"
#include "part.h"
#include "raw.h"

#include <stdio.h>
#include <stdlib.h>
#include <string.h>

enum { ROOM = 2 * SECTOR, KINDS = 16, STATES = 11 };
static const struct place place = {120 * 1024, ROOM};
static uint8_t raw_block[BLOCK];
static struct raw raw = {.place = &place, .block = raw_block};
static const struct dfu_config twin_config = {.version = DFU_VERSION, .transfer = BLOCK, .least = 1, .unit = 1, .detach_ms = 1000,
                                              .attributes = DFU_CAN_DNLOAD | DFU_CAN_UPLOAD | DFU_MANIFESTATION_TOLERANT};
static uint8_t medium[DFU_MEDIUM_SIZE(1, 0, ROOM)], block[DFU_BLOCK_SIZE(BLOCK, 1)], image[ROOM];
static const struct dfu_driver driver = DFU_MEMORY_DRIVER(medium);
static struct dfu_device twin = {
    .config = &twin_config, .flash = medium, .size = sizeof medium, .block = block, .most = sizeof block, .driver = &driver};
static uint32_t seed = 1;
static unsigned seen[STATES][KINDS];

static uint32_t draw(uint32_t count) {
    seed ^= seed << 13;
    seed ^= seed >> 17;
    seed ^= seed << 5;
    return seed % count;
}

static void wrong(const char *what, const uint8_t setup[8], int32_t one, int32_t other) {
    printf("%s: raw %d, proved %d, state %u, setup", what, (int)one, (int)other, raw.state);
    for (int i = 0; i < 8; i++)
        printf(" %02x", setup[i]);
    printf("\n");
    exit(1);
}

static void start(void) {
    raw_begin(&raw);
    if (dfu_device_format(&twin, image, sizeof image) != 0 || dfu_device_begin(&twin) != 0)
        exit(1);
}

/* Draws a request of this kind; its number and length often fit the state. */
static void choose(unsigned kind, uint8_t setup[8]) {
    static const uint8_t types[KINDS] = {0x21, 0x21, 0x21, 0xa1, 0xa1, 0xa1, 0xa1, 0x21, 0x21, 0x21, 0x21, 0x21, 0xa1, 0xc1, 0x21, 0xa1};
    static const uint8_t requests[KINDS] = {1, 1, 1, 2, 2, 3, 5, 4, 6, 0, 9, 3, 1, 3, 6, 2};
    static const uint16_t lengths[KINDS] = {BLOCK, 16, 0, BLOCK, 100, 6, 1, 0, 0, 0, 0, 6, 16, 6, 1, 0};
    static const uint16_t odd[5] = {0, 1, 2, 65535, 256};
    const uint16_t number = draw(8) != 0 ? raw.state == DFU_STATE_IDLE ? 0 : raw.number : odd[draw(5)];
    uint16_t length = lengths[kind];
    if (draw(20) == 0)
        length = (uint16_t)(draw(2) == 0 ? BLOCK + 1 + draw(3) : draw(BLOCK));
    const uint8_t made[8] = {types[kind], requests[kind], (uint8_t)number, (uint8_t)(number >> 8), draw(50) == 0, draw(50) == 0,
                             (uint8_t)length, (uint8_t)(length >> 8)};
    memcpy(setup, made, 8);
}

static void step(void) {
    const unsigned kind = draw(3) == 0 ? draw(KINDS) : raw.state == DFU_STATE_DNLOAD_SYNC || raw.state == DFU_STATE_MANIFEST_SYNC ? 5
                        : raw.state == DFU_STATE_ERROR ? 7 : raw.state == DFU_STATE_UPLOAD_IDLE ? 3 + draw(2) : draw(5);
    uint8_t setup[8], body[BLOCK], out[BLOCK], twin_out[BLOCK];
    choose(kind, setup);
    for (unsigned i = 0; i < BLOCK; i++)
        body[i] = (uint8_t)draw(256);
    seen[raw.state][kind]++;
    const uint8_t before = raw.state;
    const int is_odd = before == DFU_STATE_DNLOAD_IDLE && raw.at % UNIT != 0;
    memset(out, 0x55, sizeof out);
    const int32_t n = raw_serve(&raw, setup, body, out);
    if (is_odd && raw.state == DFU_STATE_ERROR && raw.status == DFU_STATUS_ERR_ADDRESS) {
        start();
        return;
    }
    const int32_t m = dfu_device_serve(&twin, setup, body, twin_out, sizeof twin_out);
    if (n != m)
        wrong("the answer", setup, n, m);
    if (raw.state != dfu_device_state(&twin) || raw.status != dfu_device_code(&twin))
        wrong("the state", setup, raw.status, dfu_device_code(&twin));
    if (n > 0 && setup[1] != DFU_UPLOAD && memcmp(out, twin_out, (size_t)n) != 0)
        wrong("the bytes", setup, out[0], twin_out[0]);
    if (n > 0 && setup[1] == DFU_UPLOAD && memcmp(out, part + place.at + raw.at - n, (size_t)n) != 0)
        wrong("an upload", setup, n, m);
    for (uint32_t i = n < 0 ? 0 : (uint32_t)n; i < sizeof out; i++)
        if (out[i] != 0x55)
            wrong("a byte after the answer", setup, n, m);
    if (before == DFU_STATE_MANIFEST_SYNC && raw.state == DFU_STATE_IDLE)
        start();
}

int main(int count, char **words) {
    const unsigned long steps = count > 1 ? strtoul(words[1], NULL, 10) : 100000;
    memset(part, 0xff, sizeof part);
    start();
    for (unsigned long i = 0; i < steps; i++) {
        step();
        if (draw(1000) == 0)
            start();
    }
    static const uint8_t states[] = {DFU_STATE_IDLE, DFU_STATE_DNLOAD_SYNC, DFU_STATE_DNLOAD_IDLE, DFU_STATE_MANIFEST_SYNC,
                                     DFU_STATE_UPLOAD_IDLE, DFU_STATE_ERROR};
    for (unsigned i = 0; i < sizeof states; i++)
        for (unsigned kind = 0; kind < KINDS; kind++)
            if (seen[states[i]][kind] == 0) {
                printf("the state %u never met the request %u\n", states[i], kind);
                return 1;
            }
    printf("%lu requests, answered as by the proved device\n", steps);
    return 0;
}
