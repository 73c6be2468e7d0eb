/* Injects a failure, a false report of success, and a loss of power at each write and erase of a download, for each unit, in place and with
 * sectors. The status must report failures and false reports. A loss of power, after each byte of a write, with random bytes after it, and
 * between any two calls, must leave the old image or the whole new one. The next download must succeed. */
#include "driver.h"

static const struct { uint32_t unit, sector; } parts[] = {{1, 0}, {16, 0}, {64, 0}, {256, 0}, {1, 256}, {16, 512}, {64, 256}, {256, 512}};
static const struct fate well = {WELL, 0, 0, 0};
static struct board board, shipped;
static uint8_t old[70], fresh[300];
static long downloads, cuts;
static int wrong;

static void expect(const char *what, int holds, const struct fate *fate) {
    if (!holds) {
        printf("cuts: %s, unit %u, sector %u, busy %u, trouble %d at write %u behind %u\n", what, (unsigned)board.unit,
               (unsigned)board.sector, (unsigned)config.busy_ms, (int)fate->trouble, (unsigned)fate->write, (unsigned)fate->behind);
        wrong = 1;
    }
}

/* Polls with GETSTATUS, at most three times, until the device is no longer busy. 100 ms pass after each poll. */
static void poll(const struct fate *fate) {
    for (int i = 0; i < 3 && !is_off; i++) {
        request(&board, 0xa1, 3, 0, 6, NULL, fate);
        int32_t state = dfu_core_state(&board.record);
        if (is_off || (state != 4 && state != 7 && state != 3 && state != 6))
            return;
        pass(&board, 100, fate);
    }
}

/* Downloads in blocks of 90 bytes with this fault, and ends after at most `calls` calls. */
static void download(const struct fate *fate, int calls) {
    downloads++;
    writes = 0;
    request(&board, 0x21, 0, 1000, 0, NULL, fate);
    reset(&board);
    for (uint32_t at = 0, number = 0; at < sizeof fresh && calls > 0 && !is_off; number++, calls -= 2) {
        uint32_t length = sizeof fresh - at < 90 ? (uint32_t)(sizeof fresh - at) : 90;
        request(&board, 0x21, 1, (uint16_t)number, (uint16_t)length, fresh + at, fate);
        if (calls > 1)
            poll(fate);
        at += length;
        if (dfu_core_state(&board.record) != 5)
            return;
    }
    if (is_off || calls < 1)
        return;
    request(&board, 0x21, 1, (uint16_t)((sizeof fresh + 89) / 90), 0, NULL, fate);
    if (calls > 1)
        poll(fate);
}

static int has(const uint8_t *image, size_t length) {
    struct dfu_place place;
    return dfu_core_image(&config, board.flash, board.size, &place) == 0 && place.length == length
        && memcmp(board.flash + place.at, image, length) == 0;
}

/* Restores power: an image must be active, and the next download must succeed. */
static void come_back(const struct fate *fate, int is_last) {
    cuts++;
    expect("power on", power_on(&board) == 0, fate);
    expect("an image", has(old, sizeof old) || (is_last && has(fresh, sizeof fresh)), fate);
    download(&well, 1000);
    expect("the next download", has(fresh, sizeof fresh), fate);
}

static void try_all(void) {
    struct fate none = {WELL, 0, 0, 0};
    board = shipped;
    download(&none, 1000);
    uint32_t all = writes;
    expect("a download", has(fresh, sizeof fresh) && dfu_core_state(&board.record) == 2, &none);
    for (uint32_t write = 0; write < all; write++) {
        struct fate fails = {FAILS, 1, write, 0}, lies = {LIES, 0, write, 0};
        /* The last writes make the image active: those of the bytes held back if the last unit is not whole, of the header, and of the
         * gate. On flash with sectors the last two have an erase before each, and so have the bytes held back if they begin a sector. */
        uint32_t over = sizeof fresh % board.unit, begins = board.sector != 0 && (sizeof fresh - over) % board.sector == 0;
        uint32_t commit = (over != 0) + (over != 0 && begins) + (board.sector != 0 ? 4 : 2);
        board = shipped, download(&fails, 1000);
        expect("a failure", dfu_core_code(&board.record) == (write + commit < all ? 3 : 6), &fails);
        board = shipped, download(&lies, 1000);
        expect("a lie", dfu_core_code(&board.record) == 7, &lies);
        for (uint32_t behind = 0, length = 1; behind <= length; behind++) {
            for (int torn = 0; torn < 2; torn++) {
                struct fate cut = {CUT, torn, write, behind};
                board = shipped, download(&cut, 1000);
                length = last_length;
                expect("off", is_off, &cut);
                /* An erase of the gate that is cut off may leave the gate open. By then all other bytes of the image are written. */
                come_back(&cut, write + (board.sector != 0 ? 2 : 1) >= all);
            }
        }
    }
    for (int calls = 1; calls < 12; calls++) {
        board = shipped, download(&none, calls);
        come_back(&none, 1);
    }
}

int main(void) {
    for (size_t i = 0; i < sizeof old; i++)
        old[i] = (uint8_t)(i + 1);
    for (size_t i = 0; i < sizeof fresh; i++)
        fresh[i] = (uint8_t)(i * 7 + 3);
    config.transfer = 90;
    for (size_t i = 0; i < sizeof parts / sizeof *parts; i++) {
        for (uint32_t times = 0; times < 4; times++) {
            config.busy_ms = times & 1 ? 5 : 0;
            config.manifest_ms = times & 2 ? 7 : 0;
            if (ship_sectors(&shipped, parts[i].unit, parts[i].sector, 512, old, sizeof old) != 0)
                return 1;
            try_all();
        }
    }
    printf("cuts: %ld downloads, %ld losses of power\n", downloads, cuts);
    return wrong;
}
