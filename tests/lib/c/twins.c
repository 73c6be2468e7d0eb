/* Runs random sessions on two devices, with each call made on both: one over plain memory, overwritten in place by dfu_device_memory.h, and
 * one over flash with sectors, by the calls of dfu_core.h. In each unit both must return the same results and bytes, and leave the same
 * record and image. would_stall must also agree on both, and with the result of the request. The first device has one buffer for body and
 * answer, which still holds the body after a request that has one. */
#include "driver.h"

#include "dfu_device_memory.h"

static const struct fate well = {WELL, 0, 0, 0};
static const uint32_t units[] = {1, 16, 64, 256};

/* The device over plain memory, and its data buffer before a call. */
static struct dfu_config in_place;
static uint8_t medium[MOST_FLASH], pending[DFU_BLOCK_SIZE(MOST_BLOCK, 256)], data[MOST_BLOCK];
static const struct dfu_driver driver = DFU_MEMORY_DRIVER(medium);
static struct dfu_device plain = {.config = &in_place, .flash = medium, .block = pending, .most = sizeof pending, .driver = &driver};

static int32_t plain_call(uint32_t what, uint32_t ms, const uint8_t setup[8]) {
    int32_t n = what == 0 ? dfu_device_elapse(&plain, ms)
        : what == 1 ? dfu_device_usb_reset(&plain)
        : what == 2 ? dfu_device_power_on(&plain) : dfu_device_handle(&plain, setup, data, data, sizeof data);
    return dfu_device_settle(&plain, n, data, sizeof data);
}

static int32_t make(struct board *board, uint32_t what, uint32_t ms, const uint8_t setup[8], const uint8_t *body, int32_t *other) {
    size_t length = setup[0] == 0x21 ? (size_t)(setup[6] | setup[7] << 8) : 0;
    int32_t will = dfu_device_would_stall(&plain, setup);
    if (what == 3 && will != dfu_core_would_stall(&config, &board->record, board->size, setup))
        return -100;
    memcpy(data, setup[0] == 0x21 ? body : board->out, sizeof data);
    *other = plain_call(what, ms, setup);
    if (what == 3 && will != (*other == DFU_STALL))
        return -101;
    if (what == 0)
        return pass(board, ms, &well);
    if (what == 1)
        return reset(board);
    if (what == 2)
        return power_on(board);
    return length > config.transfer ? dfu_core_too_long(&config, &board->record, setup) : transfer(board, setup, body, &well);
}

/* Returns 1 if both devices have the same state and the same active image, and the data buffer of the first holds `body`, or without a body
 * the same bytes as the answer buffer of the second. */
static int is_same(const struct board *board, const uint8_t *body) {
    const struct dfu_record *one = &plain.record, *two = &board->record;
    struct dfu_place here, there;
    if (memcmp(one, two, offsetof(struct dfu_record, work)) != 0 || one->work != 0 || two->work != 0 || one->held_length != two->held_length
        || memcmp(pending + config.transfer, board->pending + config.transfer, one->held_length) != 0)
        return 0;
    if (memcmp(board->pending, pending, one->length) != 0 || memcmp(body ? body : board->out, data, sizeof data) != 0)
        return 0;
    return dfu_device_image(&plain, &here) == 0 && dfu_core_image(&config, board->flash, board->size, &there) == 0
        && here.length == there.length && memcmp(medium + here.at, board->flash + there.at, here.length) == 0;
}

/* Formats both devices, with a random unit and sector. */
static int ship_both(struct board *board, uint32_t turn) {
    uint8_t image[64];
    uint32_t unit = units[turn % 4], sector = 256u << roll(2), capacity = roll(2) ? 512 : 1024, length = roll(64);
    config.transfer = (uint16_t)(roll(2) ? 20 : 1 + roll(MOST_BLOCK));
    for (size_t i = 0; i < sizeof image; i++)
        image[i] = (uint8_t)roll(256);
    int32_t made = ship_sectors(board, unit, sector, capacity, image, length);
    in_place = config;
    in_place.sector = 0;
    plain.size = DFU_MEDIUM_SIZE(unit, 0, capacity);
    memset(pending, 0x5a, sizeof pending);
    return made == 0 && dfu_device_format(&plain, image, length) == 0 && dfu_device_power_on(&plain) == 0;
}

int main(int count, char **words) {
    static struct board board;
    long all = count > 1 ? atol(words[1]) : 1000, installed = 0;
    for (long call = 0; call < all; call++) {
        uint8_t setup[8], body[MOST_BLOCK];
        if (call % 5000 == 0 && !ship_both(&board, (uint32_t)(call / 5000)))
            return printf("twins: nothing is made\n"), 1;
        for (size_t i = 0; i < sizeof body; i++)
            body[i] = (uint8_t)roll(256);
        if (roll(50) == 0) {
            config.busy_ms = in_place.busy_ms = roll(2) * 3;
            config.manifest_ms = in_place.manifest_ms = roll(2) * 4;
        }
        choose(&plain.record, config.transfer, setup);
        if (roll(60) == 0)
            setup[6] = (uint8_t)roll(256), setup[7] = (uint8_t)roll(2);
        uint32_t dies = roll(20), state = (uint32_t)dfu_device_state(&plain), before = plain.record.slot;
        uint32_t what = dies == 0 || state == 1 || state == 4 || state == 7 ? (roll(2) ? 0 : state == 1)
            : dies == 1 && roll(4) == 0 ? 1 + roll(2) : 3;
        uint32_t ms = roll(6);
        int32_t other = 0, result = make(&board, what, ms, setup, body, &other);
        if (result != other || !is_same(&board, setup[0] == 0x21 ? body : NULL))
            return printf("twins: call %ld, unit %u: %d, and %d of the device over memory\n", call, (unsigned)board.unit, (int)result,
                          (int)other), 1;
        if (result < -1)
            return printf("twins: call %ld was refused with %d\n", call, (int)result), 1;
        installed += plain.record.slot != before;
    }
    printf("twins: %ld calls, %u operations, %ld images put in place\n", all, (unsigned)writes, installed);
    return all > 10000 && installed < 100;
}
