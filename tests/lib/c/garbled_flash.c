/* Makes calls with garbled records, flash and blocks. Each must answer or refuse as the headers of include/ describe. A refusal changes
 * nothing, no call changes the flash, and on flash with an image no operation lies outside the spare slot. Arguments: the number of calls,
 * and a seed. The program prints a digest of all results and of the resulting memory, so that two builds of the library can be compared. */
#include "driver.h"

static const uint32_t units[] = {1, 16, 64, 256};
static struct board board, kept;
static long answers, asks, pieces, refusals[16];
static uint32_t sum = 2166136261u;

static void add(const void *bytes, size_t length) {
    for (const uint8_t *at = bytes; length--; at++)
        sum = (sum ^ *at) * 16777619u;
}

static void stop(const char *what, long call) {
    printf("garbled_flash: call %ld: %s\n", call, what);
    exit(1);
}

/* Makes a device at a random step of a download. */
static void prepare(void) {
    static uint8_t body[MOST_BLOCK];
    /* (Each number is drawn in its own statement, so that every compiler draws them in this order.) */
    uint32_t unit = units[roll(4)], sector = roll(2) * 256, slot = 512;
    sector <<= roll(2), slot <<= roll(2);
    config.transfer = (uint16_t)(1 + roll(MOST_BLOCK));
    config.busy_ms = roll(2) * 3;
    config.manifest_ms = roll(2) * 4;
    uint32_t length = roll(11);
    if (ship_sectors(&board, unit, sector, slot, (const uint8_t *)"0123456789", length) != 0)
        stop("nothing is made", -1);
    for (uint32_t step = roll(12), i = 0; i < step; i++) {
        uint8_t setup[8];
        choose(&board.record, config.transfer, setup);
        int32_t state = dfu_core_state(&board.record);
        struct fate cut = {roll(4) ? WELL : CUT, 0, writes, 0};
        cut.write += roll(3);
        if (state == 1)
            reset(&board);
        else if (state == 4 || state == 7)
            pass(&board, 5, &cut);
        else
            transfer(&board, setup, body, &cut);
        if (is_off)
            break; /* operations are pending */
    }
    is_off = 0;
}

/* Changes a few random bytes of an object. */
static void garble(void *bytes, size_t size) {
    for (uint32_t i = 0, all = roll(4); i < all; i++) {
        uint32_t at = roll((uint32_t)size);
        ((uint8_t *)bytes)[at] = (uint8_t)(roll(3) ? roll(4) : roll(256));
    }
}

static int32_t one_call(const uint8_t setup[8], const uint8_t *body, uint32_t what, struct dfu_ask *ask) {
    struct board *b = &board;
    size_t most = roll(20) ? sizeof b->pending : roll(sizeof b->pending), room = roll(20) ? sizeof b->out : roll(sizeof b->out);
    switch (what) {
    case 0: return dfu_core_elapse(&config, &b->record, b->pending, most, b->flash, b->size, roll(8));
    case 1: return dfu_core_usb_reset(&config, &b->record, b->pending, most, b->flash, b->size);
    case 2: return dfu_core_next(&config, &b->record, b->pending, most, b->flash, b->size, ask);
    case 3: return dfu_core_took(&config, &b->record, b->pending, most, b->flash, b->size, roll(4) == 0, b->out, room);
    case 5:
        return roll(2) ? dfu_core_would_stall(&config, &b->record, b->size, setup)
                       : dfu_core_closes(&config, &b->record, setup);
    case 6: return dfu_core_too_long(&config, &b->record, setup);
    case 4:
        return roll(2) ? dfu_core_power_on(&config, &b->record, b->flash, b->size)
                       : dfu_core_begin(&config, &b->record, b->flash, b->size);
    default:
        return dfu_core_handle(&config, &b->record, b->pending, most, b->flash, b->size, setup, body,
                                 setup[0] == 0x21 ? (size_t)(setup[6] | setup[7] << 8) : 0, b->out, room);
    }
}

/* Carries out the requested operations whose range is in the flash. */
static void carry_on(int32_t answer) {
    struct dfu_ask ask;
    struct board *b = &board;
    for (int i = 0; answer == DFU_WRITE_PENDING && i < 100; i++) {
        if (dfu_core_next(&config, &b->record, b->pending, sizeof b->pending, b->flash, b->size, &ask) != 0)
            return;
        uint32_t failed = ask.at + (size_t)ask.length > b->size;
        if (!failed && ask.kind == DFU_ERASE)
            memset(b->flash + ask.at, 0xff, ask.length);
        else if (!failed)
            memcpy(b->flash + ask.at, ask.bytes, ask.length);
        answer = dfu_core_took(&config, &b->record, b->pending, sizeof b->pending, b->flash, b->size, failed, b->out, sizeof b->out);
    }
}

int main(int count, char **words) {
    static uint8_t body[MOST_BLOCK];
    long all = count > 1 ? atol(words[1]) : 1000;
    dice = count > 2 ? (uint32_t)atol(words[2]) : dice;
    for (long call = 0; call < all; call++) {
        uint8_t setup[8];
        struct dfu_ask ask = {7, 7, 7, {7}};
        struct dfu_place place;
        if (call % 16 == 0)
            prepare();
        uint32_t where = roll(8);
        if (where < 4)
            garble(&board.record, sizeof board.record);
        else if (where == 4)
            garble(board.flash, board.size);
        else if (where == 5)
            garble(board.flash + roll(2) * board.size / 2, 32);
        else if (where == 6)
            garble(&config, sizeof config);
        choose(&board.record, MOST_BLOCK, setup);
        uint32_t what = roll(10);
        kept = board;
        int32_t result = one_call(setup, body, what, &ask);
        add(&result, sizeof result), add(&ask, sizeof ask), add(&board.record, sizeof board.record);
        add(board.pending, sizeof board.pending), add(board.out, sizeof board.out);
        if (memcmp(kept.flash, board.flash, board.size) != 0)
            stop("it wrote", call);
        if (result >= -1)
            answers++;
        else if (result == DFU_WRITE_PENDING)
            asks++;
        else if (result < -12 || memcmp(&kept, &board, sizeof kept) != 0 || ask.kind != 7)
            stop("a refusal that is none", call);
        else
            refusals[-result]++;
        if ((what == 4 || what == 2 || what == 1) && result > 0)
            stop("an answer that is none", call);
        if (what == 2 && result == 0) {
            pieces++;
            uint32_t sector = config.sector;
            int is_erase = ask.kind == DFU_ERASE && sector != 0 && ask.length == sector && ask.at % sector == 0;
            int is_program = ask.kind == DFU_PROGRAM && ask.length >= 1 && ask.length <= 256;
            if ((!is_erase && !is_program) || memcmp(&kept, &board, sizeof kept) != 0)
                stop("an ask that is none", call);
            if (dfu_core_image(&config, board.flash, board.size, &place) == 0) {
                size_t spare = place.at < board.size / 2 ? board.size / 2 : 0;
                if (ask.at < spare || ask.at + (size_t)ask.length > spare + board.size / 2)
                    stop("a write outside the spare slot", call);
            }
        }
        if (call % 16 > 12)
            carry_on(result);
        if (where == 6)
            config = (struct dfu_config){DFU_VERSION, 0x0100, 1, 0x1209, 20, 20, 7, 0, 0, 0, 1, board.unit, board.sector, 0, 0};
    }
    printf("garbled_flash: %ld calls, %ld answers, %ld asks, %ld pieces; refused:", all, answers, asks, pieces);
    for (int i = 2; i < 13; i++)
        printf(" %ld", refusals[i]);
    printf("; digest %08lx\n", (unsigned long)sum);
    return 0;
}
