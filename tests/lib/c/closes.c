/* Tests dfu_core_closes with random requests of hosts that mostly follow the protocol. Its result must agree with what the device then does
 * with the setup, and with dfu_core_refuse_close. After a result of 1 the candidate must be available. At the end the refusals are tested.
 * Argument: the number of sequences. */
#include "driver.h"

static const struct fate well = {WELL, 0, 0, 0};
static struct board board;
static int wrong, closed, others, asked;

static void expect(const char *what, int holds)
{
    if (!holds && wrong++ < 9)
        printf("closes: %s\n", what);
}

static int32_t closes(const uint8_t setup[8])
{
    return dfu_core_closes(&config, &board.record, setup);
}

/* Makes two checks before the setup is handled. refuse_close with one of its two statuses refuses the image exactly if the setup closes a
 * download. In this case the candidate and the held bytes have the length of the download. */
static void before(const uint8_t setup[8], int32_t result)
{
    struct dfu_record copy = board.record;
    struct dfu_place place;
    expect("refuse_close", dfu_core_refuse_close(&config, &copy, setup, 1 + roll(2)) == (result == 1 ? DFU_STALL : DFU_NO_CLOSE));
    if (result == 1)
        expect("the candidate", dfu_core_candidate(&config, &board.record, board.flash, board.size, &place) == 0
                                    && place.length + board.record.held_length == board.record.first && board.record.first >= config.least);
}

/* Makes a random request. It closed a download if it was acknowledged and led to mode 7, where an image is pending. */
static void one(void)
{
    uint8_t setup[8], body[MOST_BLOCK];
    choose(&board.record, config.transfer, setup);
    if (roll(20) == 0)
        setup[4] = (uint8_t)roll(2), setup[5] = (uint8_t)roll(2);
    for (uint32_t i = 0; i < sizeof body; i++)
        body[i] = (uint8_t)roll(256);
    const int32_t result = closes(setup);
    before(setup, result);
    const uint32_t mode = board.record.mode;
    const int32_t n = transfer(&board, setup, body, &well);
    const int was_closed = setup[0] == 0x21 && n == 0 && mode != 7 && board.record.mode == 7;
    expect("what handle does", result == was_closed);
    *(result == 1 ? &closed : &others) += 1;
}

/* While operations are pending, dfu_core_closes returns DFU_BUSY. */
static void due(void)
{
    const uint8_t setup[8] = {0xa1, 3, 0, 0, 0, 0, 6, 0}, close[8] = {0x21, 1, 0, 0, 0, 0, 0, 0};
    const int32_t n = dfu_core_handle(&config, &board.record, board.pending, sizeof board.pending, board.flash, board.size, setup, setup, 0,
                                      board.out, sizeof board.out);
    if (n == DFU_WRITE_PENDING) {
        expect("while writes are due", closes(close) == DFU_BUSY);
        asked++;
    }
    settle(&board, n, &well);
}

static void sequence(void)
{
    static const uint32_t units[] = {1, 16, 64, 256}, sectors[] = {0, 256, 512};
    static const uint8_t first[1] = {0};
    const uint32_t unit = units[roll(4)], sector = sectors[roll(3)];
    config.transfer = (uint16_t)(1 + roll(40));
    config.attributes = (uint8_t)(roll(4) ? 7 : roll(16));
    config.busy_ms = roll(2) * 5, config.manifest_ms = 1 + roll(2) * 5;
    if (config.attributes & 4 && roll(2))
        config.manifest_ms = 0;
    config.least = 1 + roll(60);
    expect("ship", ship_sectors(&board, unit, sector, 1024, first, 1) == 0);
    for (int turn = 0; turn < 60; turn++) {
        if (dfu_core_state(&board.record) < DFU_STATE_IDLE)
            dfu_core_begin(&config, &board.record, board.flash, board.size);
        if (roll(10) == 0)
            due();
        if (roll(60) == 0)
            reset(&board);
        if (board.record.mode == 5 || board.record.mode == 9)
            pass(&board, roll(4) * 5, &well);
        one();
    }
}

static void refusals(void)
{
    const uint8_t close[8] = {0x21, 1, 0, 0, 0, 0, 0, 0};
    const struct dfu_record was = board.record;
    board.record.mode = 13;
    expect("no mode", closes(close) == DFU_NO_DEVICE);
    config.unit = 3;
    expect("no configuration", closes(close) == DFU_NO_CONFIG);
    config.unit = board.unit;
    board.record = was;
    board.record.version++;
    expect("another version", closes(close) == DFU_NO_DEVICE);
}

int main(int count, char **words)
{
    const int sequences = count > 1 ? atoi(words[1]) : 2000;
    for (int i = 0; i < sequences; i++)
        sequence();
    refusals();
    printf("%d setups closed a download, %d did not, %d times writes were due\n", closed, others, asked);
    return wrong != 0 || closed < sequences / 2 || others < sequences || asked == 0;
}
