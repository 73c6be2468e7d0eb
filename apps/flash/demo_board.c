/* SPDX-License-Identifier: MIT OR Apache-2.0 */
/* Simulates the flash, the power and the bus mode of a board. The proved device code decides what the board does. */
#include "demo_board.h"
#include "standard.h"

#include <dfu_device_memory.h>
#include <libusb.h>
#include <stdlib.h>
#include <string.h>

#define UNIT 16
#define SECTOR 1024
#define SMALL 65536 /* an image up to this size is sent in small blocks, so that there are several */
#define SMALL_BLOCK 64
#define LARGE_BLOCK 4096

static const uint8_t first_image[] = "the image that the simulated board came with";

static struct {
    struct dfu_config config;
    struct dfu_driver driver;
    struct dfu_device device;
    uint8_t block[DFU_BLOCK_SIZE(LARGE_BLOCK, UNIT)];
    bool has_power, was_app;
    unsigned generation, blocks, at_block;
    enum demo_fate fate;
} board;

/* The board is enumerated again when it changes between run-time mode and DFU mode, because its descriptors differ. Returns true if the
 * mode is unchanged. */
static bool look(void)
{
    bool is_same = board.was_app == demo_is_app();
    board.was_app = demo_is_app();
    board.generation += !is_same;
    return is_same;
}

static void configure(uint16_t vendor, uint16_t product, size_t most)
{
    board.config = (struct dfu_config){
        .version = DFU_VERSION,
        .unit = UNIT,
        .sector = SECTOR,
        .device = 0x0100,
        .product = product,
        .vendor = vendor,
        .detach_ms = 1000,
        .transfer = most > SMALL ? LARGE_BLOCK : SMALL_BLOCK,
        .attributes = CAN_DOWNLOAD | CAN_UPLOAD | IS_TOLERANT,
        .busy_ms = 1,
        .manifest_ms = 1,
        .least = 1,
    };
}

bool demo_make(uint16_t vendor, uint16_t product, size_t most)
{
    size_t capacity = (most / SECTOR + 1) * SECTOR, size = DFU_MEDIUM_SIZE(UNIT, SECTOR, capacity);
    uint8_t *flash = malloc(size);
    if (flash == NULL)
        return false;
    memset(flash, 0xff, size);
    configure(vendor, product, most);
    board.driver = (struct dfu_driver){.own = flash, .erase = dfu_memory_erase, .program = dfu_memory_program};
    board.device = (struct dfu_device){.config = &board.config, .flash = flash, .size = size, .driver = &board.driver};
    board.device.block = board.block;
    board.device.most = sizeof board.block;
    board.has_power = dfu_device_power_on_or_format(&board.device, first_image, sizeof first_image - 1) == 0;
    board.was_app = true;
    board.generation = 1;
    return board.has_power;
}

void demo_plan(enum demo_fate fate, unsigned block)
{
    board.fate = fate;
    board.at_block = block;
    board.blocks = 0;
}

void demo_plug(void)
{
    memset(&board.device.record, 0, sizeof board.device.record);
    board.has_power = dfu_device_power_on(&board.device) == 0;
    board.was_app = true;
    board.generation++;
}

bool demo_has_power(void)
{
    return board.has_power;
}

bool demo_is_app(void)
{
    return dfu_device_state(&board.device) <= DFU_STATE_APP_DETACH;
}

unsigned demo_generation(void)
{
    return board.generation;
}

size_t demo_block(void)
{
    return board.config.transfer;
}

uint16_t demo_vendor(void)
{
    return board.config.vendor;
}

uint16_t demo_product(void)
{
    return board.config.product;
}

void demo_functional(uint8_t bytes[9])
{
    dfu_device_functional(&board.config, bytes);
}

/* Returns the planned fault, and clears it, if this request sends the block for which the fault was planned. */
static enum demo_fate take_fate(const uint8_t setup[8])
{
    enum demo_fate fate = board.fate;
    if (!is_request(setup, KIND_OUT, REQUEST_DNLOAD) || fate == DEMO_NOTHING || board.blocks++ != board.at_block)
        return DEMO_NOTHING;
    board.fate = DEMO_NOTHING;
    return fate;
}

int demo_request(const uint8_t setup[8], uint8_t *data)
{
    bool is_in = (setup[0] & KIND_IS_IN) != 0;
    enum demo_fate fate = take_fate(setup);
    int32_t answer;
    if (fate == DEMO_PLUG)
        board.has_power = false;
    if (!board.has_power)
        return LIBUSB_ERROR_NO_DEVICE;
    answer = dfu_device_serve(&board.device, setup, data, data, LARGE_BLOCK);
    if (answer >= 0)
        dfu_device_work(&board.device);
    look();
    if (fate == DEMO_ANSWER)
        return LIBUSB_ERROR_TIMEOUT;
    return answer < 0 ? LIBUSB_ERROR_PIPE : is_in ? (int)answer : (int)setup_length(setup);
}

bool demo_reset(void)
{
    dfu_device_reset(&board.device);
    return look();
}

const uint8_t *demo_image(size_t *length)
{
    struct dfu_place place = {0};
    dfu_device_image(&board.device, &place);
    *length = place.length;
    return board.device.flash + place.at;
}
