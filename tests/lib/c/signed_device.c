/* Tests a device that accepts only signed images, by signed_serve of examples/signed. It checks the status for each image, that a refused
 * image changes no byte of the flash and leaves the old one active, that a download succeeds after CLRSTATUS, and with which image security
 * counters are compared. Images run on trial or not, in several units, and the device is tolerant of manifestation or not. */
#include "serve.h"
#include "signed.h"

enum { SECTOR = 1024, CAPACITY = 2048, BLOCK = 128, STATES = 16 };
#define SIZE DFU_MEDIUM_SIZE(256, SECTOR, CAPACITY)

static uint8_t flash[SIZE], before[SIZE], block[DFU_BLOCK_SIZE(BLOCK, 256)], out[BLOCK], old[MOST];
static struct dfu_config config = {.version = DFU_VERSION, .device = 0x0100, .product = 1, .vendor = 0x1209, .detach_ms = 255,
                                   .transfer = BLOCK, .least = 5};
static size_t old_length;
static int wrong;
static unsigned long checks;

static int erase(void *own, uint32_t at, uint32_t count) {
    memset((uint8_t *)own + at, 0xff, count);
    return 0;
}

static int program(void *own, uint32_t at, const uint8_t *from, uint32_t count) {
    for (uint32_t i = 0; i < count; i++)
        ((uint8_t *)own)[at + i] = config.sector ? ((uint8_t *)own)[at + i] & from[i] : from[i];
    return 0;
}

static const struct dfu_driver driver = {flash, erase, program};
static struct dfu_device device = {.config = &config, .flash = flash, .block = block, .most = sizeof block, .driver = &driver};
static struct dfu_trial trial = {.flash = flash, .driver = &driver};
static struct signed_board board = {.device = &device, .rules = {(const uint8_t (*)[SIGNED_KEY])keys, 1, HARDWARE, 0}};

static void expect(const char *row, const char *what, int holds) {
    checks++;
    if (!holds && wrong++ < 20)
        printf("signed_device: %s: %s (unit %u, attributes %u, %s)\n", row, what, (unsigned)config.unit, config.attributes,
               board.trial ? "on trial" : "no trial");
}

static int32_t ask(uint8_t kind, uint8_t what, uint16_t value, size_t count, const uint8_t *data) {
    const uint8_t setup[8] = {kind, what, (uint8_t)value, (uint8_t)(value >> 8), 0, 0, (uint8_t)count, (uint8_t)(count >> 8)};
    const int32_t n = signed_serve(&board, setup, data, out, sizeof out);
    const int32_t worked = dfu_device_work(&device);
    return worked < 0 ? worked : n;
}

static int32_t status(void) {
    return ask(0xa1, DFU_GETSTATUS, 0, 6, out) == 6 ? out[0] * STATES + out[4] : -1;
}

/* Returns 1 if the previous image is active. */
static int is_old(void) {
    struct dfu_place place;
    return dfu_device_image(&device, &place) == 0 && place.length == old_length && memcmp(flash + place.at, old, old_length) == 0;
}

static void send(const char *row) {
    uint16_t number = 0;
    for (size_t at = 0; at < length; at += BLOCK) {
        const size_t count = length - at < BLOCK ? length - at : BLOCK;
        expect(row, "a block", ask(0x21, DFU_DNLOAD, number++, count, made + at) == 0);
        (void)status();
        if (dfu_device_state(&device) != DFU_STATE_DNLOAD_IDLE)
            (void)status();
        expect(row, "the block is written", dfu_device_state(&device) == DFU_STATE_DNLOAD_IDLE);
    }
}

static void refused(const char *row, enum signed_verdict verdict) {
    const uint8_t code = verdict == SIGNED_OTHER_BOARD || verdict == SIGNED_OLDER ? DFU_STATUS_ERR_TARGET : DFU_STATUS_ERR_FILE;
    send(row);
    memcpy(before, flash, sizeof flash);
    board.verdict = SIGNED_TAKEN;
    expect(row, "the close is stalled", ask(0x21, DFU_DNLOAD, 99, 0, out) == DFU_STALL);
    expect(row, "the verdict", board.verdict == verdict);
    expect(row, "what the host is told", status() == code * STATES + DFU_STATE_ERROR);
    expect(row, "all else is stalled", ask(0x21, DFU_DNLOAD, 0, 0, out) == DFU_STALL && ask(0x21, DFU_DNLOAD, 0, 4, made) == DFU_STALL);
    expect(row, "no byte of flash is another one", memcmp(before, flash, sizeof flash) == 0);
    expect(row, "the old image is active", is_old());
    expect(row, "CLRSTATUS leads on", ask(0x21, DFU_CLRSTATUS, 0, 0, out) == 0 && status() == DFU_STATE_IDLE);
}

static void taken(const char *row) {
    struct dfu_place place;
    struct signed_image told;
    send(row);
    expect(row, "the close", ask(0x21, DFU_DNLOAD, 99, 0, out) == 0);
    expect(row, "the verdict", board.verdict == SIGNED_TAKEN);
    for (unsigned turn = 0; turn < 3; turn++)
        (void)status();
    expect(row, "the reset", dfu_device_reset(&device) == 0 && dfu_device_begin(&device) == 0);
    memcpy(old, made, old_length = length);
    expect(row, "it is active", is_old());
    expect(row, "it may start", dfu_device_image(&device, &place) == 0 && signed_may_start(&board, &place, &told)
               && told.length == 200 && told.program == 32);
    flash[place.at + 50] ^= 1;
    expect(row, "with another bit it may not", !signed_may_start(&board, &place, &told) && board.verdict == SIGNED_WRONG_DIGEST);
    flash[place.at + 50] ^= 1;
}

static void confirm(const char *row) {
    struct dfu_place place;
    expect(row, "it confirms itself", dfu_device_image(&device, &place) == 0 && dfu_trial_accept(&trial, place.at) == 0);
}

/* Formats a new board, whose first image has this counter. With trials that image is confirmed. */
static void ship(uint32_t counter) {
    make(counter, HARDWARE, 0);
    memset(flash, 0xff, sizeof flash);
    device.size = DFU_MEDIUM_SIZE(config.unit, config.sector, CAPACITY);
    trial.size = device.size;
    trial.tries = (struct dfu_tries){config.unit, config.sector, 2};
    expect("ship", "the format", dfu_device_format(&device, made, length) == 0 && dfu_device_begin(&device) == 0);
    memcpy(old, made, old_length = length);
    if (board.trial)
        confirm("ship");
}

/* Sends images that the check refuses, one for most verdicts, and at the end valid ones. */
static void rows(void) {
    ship(5);
    make(5, HARDWARE, 0), made[40] ^= 1, refused("a bit of the program", SIGNED_WRONG_DIGEST);
    make(5, HARDWARE, 0), length--, refused("one byte shorter", SIGNED_WRONG_LENGTHS);
    make(5, HARDWARE, 0), length++, refused("one byte longer", SIGNED_WRONG_LENGTHS);
    make(5, HARDWARE, 1), refused("another key", SIGNED_OTHER_KEY);
    make(5, HARDWARE, 0), made[length - 1] ^= 1, refused("a bit of the signature", SIGNED_WRONG_SIGNATURE);
    begin(32, 200), length = 232, refused("unsigned", SIGNED_WRONG_LENGTHS);
    make(5, HARDWARE, 0), length = 200, memmove(made, made + 32, 200), refused("the program alone", SIGNED_NO_HEADER);
    make(5, HARDWARE + 1, 0), refused("another board", SIGNED_OTHER_BOARD);
    make(4, HARDWARE, 0), refused("an older counter", SIGNED_OLDER);
    for (size_t bit = 0; bit < 8 * length; bit += 61) {
        make(5, HARDWARE, 0), made[bit / 8] ^= (uint8_t)(1 << bit % 8), send("a bit");
        expect("a bit", "it is refused", ask(0x21, DFU_DNLOAD, 0, 0, out) == DFU_STALL && is_old());
        expect("a bit", "errFILE", status() == DFU_STATUS_ERR_FILE * STATES + DFU_STATE_ERROR);
        expect("a bit", "CLRSTATUS", ask(0x21, DFU_CLRSTATUS, 0, 0, out) == 0);
    }
    expect("empty", "it is stalled", ask(0x21, DFU_DNLOAD, 0, 0, out) == DFU_STALL && is_old());
    expect("empty", "CLRSTATUS", ask(0x21, DFU_CLRSTATUS, 0, 0, out) == 0);
    /* A transfer below config.least is an error of the device table, so the image is not checked. */
    length = 4, send("too short"), board.verdict = SIGNED_TAKEN;
    expect("too short", "errNOTDONE", ask(0x21, DFU_DNLOAD, 1, 0, out) == DFU_STALL && board.verdict == SIGNED_TAKEN
               && status() == DFU_STATUS_ERR_NOTDONE * STATES + DFU_STATE_ERROR && ask(0x21, DFU_CLRSTATUS, 0, 0, out) == 0);
    make(5, HARDWARE, 0), taken("an equal counter");
    make(6, HARDWARE, 0), taken("a newer one");
}

/* Checks that a download's security counter is compared with that of the active image, or with trials with that of the confirmed one. */
static void counters(void) {
    ship(5);
    make(9, HARDWARE, 0), taken("a counter of 9");
    if (board.trial == NULL) {
        make(8, HARDWARE, 0), refused("older than the active image", SIGNED_OLDER);
        return;
    }
    /* The last image is still on trial: counters are compared with the confirmed image, which is active again from the next download's
     * first block. */
    make(5, HARDWARE, 0), taken("as new as the confirmed image");
    make(9, HARDWARE, 0), taken("a counter of 9 again");
    confirm("a counter of 9 again");
    make(8, HARDWARE, 0), refused("older than the confirmed image", SIGNED_OLDER);
    make(9, HARDWARE, 0), taken("as new as that");
}

int main(void) {
    static const uint32_t kinds[][2] = {{1, 0}, {16, 0}, {1, SECTOR}, {16, SECTOR}, {64, SECTOR}, {256, SECTOR}};
    if (sodium_init() < 0)
        return 2;
    make_keys();
    for (unsigned i = 0; i < 8 * sizeof kinds / sizeof kinds[0]; i++) {
        config.unit = kinds[i / 8][0], config.sector = kinds[i / 8][1];
        config.attributes = DFU_CAN_DNLOAD | DFU_CAN_UPLOAD | (i & 1 ? DFU_MANIFESTATION_TOLERANT : 0);
        config.busy_ms = i & 2 ? 5 : 0, config.manifest_ms = i & 1 ? 2 * config.busy_ms : 10;
        board.trial = i & 4 && config.sector != 0 ? &trial : NULL;
        rows();
        counters();
    }
    printf("signed_device: %lu checks\n", checks);
    return wrong != 0;
}
