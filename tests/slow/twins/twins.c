/* Makes random calls with the library of version 0.2.0 and with this one, and compares answers, bytes, records, flash, and operations of
 * the flash. The host mostly follows the protocol; the devices lose power, their operations fail or leave other bytes, and record, flash or
 * configuration are garbled. For flash without sectors the device over plain memory of 0.2.0 must agree too, as long as nothing is garbled.
 * Arguments: the number of calls, and a seed. */
#include "../../lib/c/driver.h"
#include "landed.h"

static struct board one, two;
static struct dfu_config garbled;
static uint8_t body[MOST_BLOCK], image[1500];
static size_t image_length;
static long calls, operations, installed, answered, refused, in_memory, alone;

/* is_torn: record, flash or configuration were garbled, at random or by a faulty operation. is_alone: 0.2.0 refused the last call, this
 * version answered it, and both boards continue from the result of this version. */
static int is_torn, is_alone;

/* The device over plain memory of 0.2.0, if this session has one. */
static struct board plain;
static int is_plain;

static void stop(const char *what) {
    printf("twins: call %ld differs: %s\n", calls, what);
    exit(1);
}

static int32_t same(const char *what, int32_t new_one, int32_t landed) {
    calls++;
    *(new_one >= -1 ? &answered : &refused) += 1;
    /* At each request 0.2.0 checked that the sector after the last block is erased, and refused a flash where it isn't. This version leaves
     * that to the read-back of a write. So after such a refusal of 0.2.0 its board gets the state that this version's call left. */
    is_alone = is_torn && garbled.sector != 0 && landed == DFU_NO_DEVICE && new_one != landed;
    if (is_alone) {
        alone++;
        two = one;
        return new_one;
    }
    if (new_one != landed) {
        printf("%d, and %d of 0.2.0\n", (int)new_one, (int)landed);
        stop(what);
    }
    if (memcmp(&one.record, &two.record, sizeof one.record) != 0)
        stop("the record");
    if (memcmp(one.pending, two.pending, sizeof one.pending) != 0 || memcmp(one.out, two.out, sizeof one.out) != 0)
        stop("the block or the answer");
    return new_one;
}

/* Makes a new board with random settings. */
static void begin(void) {
    static const uint32_t units[] = {1, 16, 64, 256}, sectors[] = {0, 0, 256, 512};
    uint32_t unit = units[roll(4)], sector = sectors[roll(4)], capacity = roll(2) ? 512 : 1024;
    config = (struct dfu_config){DFU_VERSION, 0x0100, 1, 0x1209, (uint16_t)roll(40), (uint16_t)(1 + roll(roll(2) ? 20 : MOST_BLOCK)),
                                 (uint8_t)(roll(3) ? 7 : roll(16)), (uint8_t)(roll(2) ? 0 : roll(4)), roll(2) * 3, 1 + roll(2) * 4,
                                 1 + roll(3), 1, 0, 0, 0};
    if (config.attributes & DFU_MANIFESTATION_TOLERANT && roll(2))
        config.manifest_ms = 0;
    for (size_t i = 0; i < sizeof image; i++)
        image[i] = (uint8_t)roll(256);
    image_length = roll(70);
    if (ship_sectors(&one, unit, sector, capacity, image, image_length) != 0)
        stop("nothing is made");
    two = one, garbled = config, is_torn = 0;
    is_plain = sector == 0 && roll(2);
    plain = one;
    if (is_plain && landed_memory_power_on(&config, &plain.record, plain.flash, plain.size) != 0)
        stop("nothing is made of the device over memory");
}

/* Carries out an operation, or fails, reports a false success, or loses power. Returns 0; 1 if it failed; 2 after a loss of power. */
static uint32_t carry_out(const struct dfu_ask *ask) {
    uint32_t trouble = is_plain ? 4 : roll(60), length = ask->length;
    operations++;
    is_torn |= trouble < 3;
    if (ask->at + (size_t)length > one.size || (ask->kind == DFU_PROGRAM && length > 256))
        return 1;
    if (trouble < 2)
        length = roll(length);
    if (ask->kind == DFU_ERASE)
        memset(one.flash + ask->at, 0xff, length);
    else
        memcpy(one.flash + ask->at, ask->bytes, length);
    for (uint32_t i = length; trouble == 1 && i < ask->length; i++)
        one.flash[ask->at + i] = (uint8_t)roll(256);
    if (trouble == 2)
        one.flash[ask->at + roll(ask->length)] ^= 1;
    memcpy(two.flash, one.flash, sizeof two.flash);
    return trouble < 2 ? 1 + roll(2) : trouble == 3;
}

static void power_on_both(void);

/* Carries out the pending operations of both boards. */
static int32_t settle_both(int32_t answer) {
    for (int i = 0; answer == DFU_WRITE_PENDING && i < 200; i++) {
        struct dfu_ask a = {7, 7, 7, {7}}, b = a;
        int32_t next = same("next", dfu_core_next(&garbled, &one.record, one.pending, sizeof one.pending, one.flash, one.size, &a),
                            landed_next(&garbled, &two.record, two.pending, sizeof two.pending, two.flash, two.size, &b));
        if (!is_alone && memcmp(&a, &b, sizeof a) != 0)
            stop("the operation");
        if (next != 0)
            return DFU_WRITE_PENDING;
        uint32_t failed = carry_out(&a);
        if (failed == 2) {
            power_on_both();
            return DFU_WRITE_PENDING;
        }
        size_t room = roll(200) ? sizeof one.out : roll(9);
        room = is_plain ? sizeof one.out : room;
        answer = same("took",
            dfu_core_took(&garbled, &one.record, one.pending, sizeof one.pending, one.flash, one.size, failed, one.out, room),
            landed_took(&garbled, &two.record, two.pending, sizeof two.pending, two.flash, two.size, failed, two.out, room));
    }
    return answer;
}

static void power_on_both(void) {
    int is_in_idle = roll(2) && garbled.transfer <= MOST_BLOCK && !is_plain;
    if (is_in_idle)
        same("begin", dfu_core_begin(&garbled, &one.record, one.flash, one.size),
             landed_begin(&garbled, &two.record, two.pending, sizeof two.pending, two.flash, two.size));
    else
        same("power on", dfu_core_power_on(&garbled, &one.record, one.flash, one.size),
             landed_power_on(&garbled, &two.record, two.flash, two.size));
    if (is_plain && landed_memory_power_on(&garbled, &plain.record, plain.flash, plain.size) != 0)
        stop("power on of the device over memory");
}

/* Formats the flash with both libraries; the format may be broken off. */
static void format_both(void) {
    size_t length = roll(8) ? roll(600) : roll(sizeof image);
    int32_t answer = same("format", dfu_core_format_start(&garbled, &one.record, one.flash, one.size, image, length),
                          landed_format_start(&garbled, &two.record, two.flash, two.size, image, length));
    while (answer == DFU_WRITE_PENDING && roll(100) != 0) {
        struct dfu_ask a = {7, 7, 7, {7}}, b = a;
        int32_t next = same("format next", dfu_core_format_next(&garbled, &one.record, one.flash, one.size, image, length, &a),
                            landed_format_next(&garbled, &two.record, two.flash, two.size, image, length, &b));
        if (memcmp(&a, &b, sizeof a) != 0)
            stop("the operation of a format");
        if (next != 0)
            return;
        uint32_t failed = carry_out(&a);
        if (failed == 2)
            break;
        answer = same("format took", dfu_core_format_took(&garbled, &one.record, one.flash, one.size, image, length, failed),
                      landed_format_took(&garbled, &two.record, two.flash, two.size, image, length, failed));
    }
    power_on_both();
}

/* Writes random bytes into the record, the flash or the configuration. */
static void garble(void) {
    uint32_t where = roll(3), at;
    for (uint32_t i = 0, all = 1 + roll(3); i < all; i++) {
        uint8_t byte = (uint8_t)(roll(3) ? roll(4) : roll(256));
        if (where == 0)
            at = roll(sizeof one.record), ((uint8_t *)&one.record)[at] = byte;
        else if (where == 1)
            at = roll(2) * (uint32_t)one.size / 2 + roll(roll(2) ? 40 : (uint32_t)one.size / 2), one.flash[at] = byte;
        else
            /* (0.2.0 has no times for an erase and a program) */
            at = roll(offsetof(struct dfu_config, erase_ms)), ((uint8_t *)&garbled)[at] = byte;
    }
    /* (landed.c turns every wrong version of a record into the same wrong version of 0.2.0) */
    two.record = one.record;
    memcpy(two.flash, one.flash, sizeof two.flash);
    is_torn = 1;
}

/* Makes the calls that change nothing with both libraries, and compares their results. These calls take no flash, or only read it. */
static void look(const uint8_t setup[8]) {
    struct dfu_place a = {7, 7}, b = a;
    uint8_t x[9] = {0}, y[9] = {0};
    same("due", dfu_core_due(&garbled, &one.record), landed_due(&garbled, &two.record));
    same("state", dfu_core_state(&one.record), landed_state(&two.record));
    same("code", dfu_core_code(&one.record), landed_code(&two.record));
    same("functional", dfu_core_functional(&garbled, x), landed_functional(&garbled, y));
    same("would stall", dfu_core_would_stall(&garbled, &one.record, one.size, setup),
         landed_would_stall(&garbled, &two.record, two.size, setup));
    if (roll(8) == 0)
        same("image", dfu_core_image(&garbled, one.flash, one.size, &a), landed_image(&garbled, two.flash, two.size, &b));
    if (memcmp(&a, &b, sizeof a) != 0 || memcmp(x, y, sizeof x) != 0)
        stop("the place or the descriptor");
}

/* Checks that the device over plain memory did the same. */
static void plain_is(int32_t answer, int32_t of_plain) {
    in_memory++;
    if (answer != of_plain || memcmp(one.flash, plain.flash, one.size) != 0 || memcmp(one.out, plain.out, sizeof one.out) != 0)
        stop("the device over memory");
    /* This device does its operations at once, so none is pending. Unused bytes after the held ones, and after the block, may differ. */
    const struct dfu_record *ours = &one.record, *its = &plain.record;
    const uint8_t *held = one.pending + config.transfer, *its_held = plain.pending + config.transfer;
    if (memcmp(ours, its, offsetof(struct dfu_record, work)) != 0 || ours->held_length != its->held_length
        || memcmp(held, its_held, ours->held_length) != 0 || memcmp(one.pending, plain.pending, ours->length) != 0)
        stop("the record of the device over memory");
}

static void elapse_both(uint32_t ms) {
    int32_t n = settle_both(same("elapse",
        dfu_core_elapse(&garbled, &one.record, one.pending, sizeof one.pending, one.flash, one.size, ms),
        landed_elapse(&garbled, &two.record, two.pending, sizeof two.pending, two.flash, two.size, ms)));
    if (is_plain)
        plain_is(n, landed_memory_elapse(&garbled, &plain.record, plain.pending, sizeof plain.pending, plain.flash, plain.size, ms));
}

static void reset_both(void) {
    int32_t n = same("reset", dfu_core_usb_reset(&garbled, &one.record, one.pending, sizeof one.pending, one.flash, one.size),
        landed_usb_reset(&garbled, &two.record, two.pending, sizeof two.pending, two.flash, two.size));
    if (is_plain)
        plain_is(n, landed_memory_usb_reset(&garbled, &plain.record, plain.pending, sizeof plain.pending, plain.flash, plain.size));
}

static void handle_both(const uint8_t setup[8]) {
    size_t length = setup[0] == 0x21 ? (size_t)(setup[6] | setup[7] << 8) : 0;
    size_t room = is_plain || roll(40) ? sizeof one.out : roll(sizeof one.out);
    size_t most = is_plain || roll(40) ? sizeof one.pending : roll(300);
    if (length > sizeof body || roll(50) == 0)
        same("too long", dfu_core_too_long(&garbled, &one.record, setup), landed_too_long(&garbled, &two.record, setup));
    if (is_plain)
        plain.record = one.record;
    if (length > sizeof body)
        return;
    int32_t n = settle_both(same("handle",
        dfu_core_handle(&garbled, &one.record, one.pending, most, one.flash, one.size, setup, body, length, one.out, room),
        landed_handle(&garbled, &two.record, two.pending, most, two.flash, two.size, setup, body, length, two.out, room)));
    if (is_plain)
        plain_is(n, landed_memory_handle(&garbled, &plain.record, plain.pending, most, plain.flash, plain.size, setup, body, length,
                                         plain.out, room));
}

static void turn(void) {
    uint8_t setup[8];
    int32_t state = dfu_core_state(&one.record);
    uint32_t slot = one.record.slot, dies = roll(40);
    if (!is_plain && roll(30) == 0)
        garble();
    for (size_t i = 0; i < sizeof body; i++)
        body[i] = (uint8_t)roll(256);
    choose(&one.record, config.transfer, setup);
    if (roll(20) != 0)
        setup[4] = config.interface_number;
    if (roll(60) == 0)
        setup[6] = (uint8_t)roll(256), setup[7] = (uint8_t)roll(2);
    look(setup);
    if (dies == 0)
        power_on_both();
    else if (dies == 1 && !is_plain)
        format_both();
    else if (dies == 2 || (state == 1 && dies < 25))
        reset_both();
    else if (dies == 3 || state == 4 || state == 7)
        elapse_both(roll(12));
    else
        handle_both(setup);
    installed += one.record.slot != slot;
}

int main(int count, char **words) {
    long all = count > 1 ? atol(words[1]) : 1000;
    dice = count > 2 ? (uint32_t)atol(words[2]) : 1;
    for (long at = 0; calls < all; at++) {
        if (at % 100 == 0)
            begin();
        turn();
    }
    printf("twins: %ld calls, %ld answered, %ld refused, %ld operations, %ld images put in place, %ld calls over memory too, "
           "%ld of this version alone\n", calls, answered, refused, operations, installed, in_memory, alone);
    return installed == 0 || in_memory == 0 || alone > calls / 100;
}
