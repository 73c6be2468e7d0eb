/* Tests of a device whose program refuses images: at the close, in dfuMANIFEST-SYNC and in dfuMANIFEST. They check states, status codes,
 * answers, the image and the flash, the candidate, and each refusal of the calls. The devices are tolerant of manifestation or not, have
 * units of 1, 16, 64 and 256 bytes, and are overwritten in place or have sectors.
 *
 * The program decides what it checks. A program that never calls dfu_device_closes accepts every image, as the row "never asked" shows. A
 * check before an image becomes active is no secure boot. */
#include "checking.h"

#define MODES 13
#define AT_ONCE 7, 0, 0
#define TOLERANT 7, 5, 10
#define NOT_TOLERANT 3, 5, 10

static struct board stations[MODES];

/* Closes the download, checks that its image is the candidate, and polls until the image is active. */
static void installs(enum which which) {
    expect("the close", ask(0x21, 1, 9, 0, NULL) == 0 && state() == DFU_STATE_MANIFEST_SYNC);
    candidate_is("the candidate in dfuMANIFEST-SYNC", payload[which], sizeof payload[which]);
    if (config.manifest_ms != 0) {
        status_is("dfuMANIFEST", 0, DFU_STATE_MANIFEST);
        candidate_is("the candidate in dfuMANIFEST", payload[which], sizeof payload[which]);
        expect("the manifestation time", pass(&board, config.manifest_ms, &well) == 0);
    } else
        status_is("dfuIDLE", 0, DFU_STATE_IDLE);
    no_candidate("none once it is in place");
    image_is("it is in place", payload[which], sizeof payload[which]);
}

/* After a refusal GETSTATUS reports the code, the old image stays active, and after CLRSTATUS the next download succeeds. */
static void goes_on(uint8_t code) {
    static const uint8_t first[1] = {0};
    no_candidate("none in dfuERROR");
    status_is("the host is told", code, DFU_STATE_ERROR);
    expect("all other requests are stalled", ask(0x21, 1, 0, 8, payload[W]) == STALLED && ask(0x21, 1, 9, 0, NULL) == STALLED);
    expect("time changes nothing", pass(&board, 1000, &well) == 0 && state() == DFU_STATE_ERROR);
    image_is("the image stays", first, 1);
    expect("CLRSTATUS", ask(0x21, 4, 0, 0, NULL) == 0 && state() == DFU_STATE_IDLE);
    download(N);
    installs(N);
}

/* Refuses an image at the close of its download. The next download must succeed. */
static void at_the_close(uint8_t attributes, uint32_t busy, uint32_t manifest, uint32_t unit, uint32_t sector, uint8_t code) {
    row = "at the close";
    begin(attributes, busy, manifest, unit, sector);
    download(W);
    keep();
    expect("it is a stall", refuse_close(code) == DFU_STALL);
    errs("to dfuERROR", code);
    goes_on(code);
}

/* Refuses an image after the close of its download, in dfuMANIFEST-SYNC or in dfuMANIFEST. */
static void after_the_close(uint8_t attributes, uint32_t busy, uint32_t manifest, uint32_t unit, uint32_t sector, uint8_t code,
                            int manifests) {
    row = manifests ? "in dfuMANIFEST" : "in dfuMANIFEST-SYNC";
    begin(attributes, busy, manifest, unit, sector);
    download(W);
    expect("the close", ask(0x21, 1, 9, 0, NULL) == 0 && state() == DFU_STATE_MANIFEST_SYNC);
    if (manifests)
        status_is("dfuMANIFEST", 0, DFU_STATE_MANIFEST);
    keep();
    expect("it is done", refuse(code) == 0);
    errs("to dfuERROR", code);
    goes_on(code);
}

static void visit(void) {
    if (board.record.mode < MODES)
        stations[board.record.mode] = board;
}

/* `refuse` acts in exactly two modes, and `refuse_close` in exactly one. The refusals of both calls have a fixed order. */
static void in_each_mode(uint8_t attributes, uint32_t unit, uint32_t sector) {
    static const uint32_t others[] = {0, 3, 4, 5, 6, 7, 8, 9, 10, 11, 12, 13, 14, 15, 16, 255, 257, 258, 65537, 0xffffffff};
    row = "in each mode";
    begin(attributes, 5, 10, unit, sector);
    visit();
    expect("appIDLE", reset(&board) == 0), visit();
    ask(0x21, 0, 1000, 0, NULL), visit();
    reset(&board);
    ask(0xa1, 2, 0, 1, NULL), visit();
    ask(0x21, 6, 0, 0, NULL);
    ask(0x21, 1, 0, 8, payload[W]), visit();
    ask(0xa1, 3, 0, 6, NULL), visit();
    pass(&board, 5, &well), visit();
    ask(0xa1, 3, 0, 6, NULL), visit();
    ask(0x21, 1, 1, 0, NULL), visit();
    ask(0xa1, 3, 0, 6, NULL), visit();
    pass(&board, 10, &well), visit();
    ask(0x21, 7, 0, 0, NULL), visit();
    stations[12] = stations[2], stations[12].record.mode = 12, stations[12].record.number = 15;
    if (attributes & DFU_MANIFESTATION_TOLERANT)
        stations[10] = stations[2], stations[10].record.mode = 10;
    else
        stations[8] = stations[2], stations[8].record.mode = 8;
    for (uint32_t mode = 0; mode < MODES; mode++) {
        board = stations[mode];
        expect("the mode", board.record.mode == mode);
        keep();
        expect("refuse", refuse(DFU_STATUS_ERR_FILE) == 0);
        if (mode == 7 || mode == 9)
            errs("to dfuERROR", DFU_STATUS_ERR_FILE);
        else
            expect("refuse changes nothing", is_same());
        board = before;
        int32_t result = refuse_close(DFU_STATUS_ERR_TARGET);
        if (mode == 6) {
            expect("refuse_close", result == DFU_STALL);
            errs("to dfuERROR", DFU_STATUS_ERR_TARGET);
        } else
            expect("refuse_close changes nothing", result == DFU_NO_CLOSE && is_same());
        board = before;
        for (unsigned at = 0; at < sizeof others / sizeof others[0]; at++)
            expect("another status", refuse(others[at]) == DFU_NO_STATUS && refuse_close(others[at]) == DFU_NO_STATUS && is_same());
        for (unsigned at = 0; at < 8; at++)
            for (unsigned with = 0; with < 8; with++) {
                uint8_t setup[8];
                memcpy(setup, closing, sizeof setup);
                setup[at] ^= (uint8_t)(1u << with);
                result = dfu_core_refuse_close(&config, &board.record, setup, DFU_STATUS_ERR_FILE);
                int closes = mode == 6 && (at == 2 || at == 3);
                expect("another setup: only wValue is not looked at", closes ? result == DFU_STALL : result == DFU_NO_CLOSE && is_same());
                board = before;
            }
        board.record.work = 1;
        keep();
        expect("writes are due", refuse(2) == DFU_BUSY && refuse_close(2) == DFU_BUSY && refuse(5) == DFU_BUSY && is_same());
        board.record.mode = 13;
        keep();
        expect("no mode", refuse(2) == DFU_NO_DEVICE && refuse_close(2) == DFU_NO_DEVICE && is_same());
        config.unit = 3;
        expect("no configuration", refuse(2) == DFU_NO_CONFIG && refuse_close(2) == DFU_NO_CONFIG && is_same());
        config.unit = unit;
    }
}

/* The close of a download below config.least is an error of its own, and refuse_close returns DFU_NO_CLOSE for it. */
static void too_short(void) {
    row = "too short";
    begin(7, 0, 0, 16, 0);
    config.least = 72;
    download(W);
    keep();
    expect("no close", refuse_close(DFU_STATUS_ERR_FILE) == DFU_NO_CLOSE && is_same());
    expect("the table", ask(0x21, 1, 9, 0, NULL) == STALLED && dfu_core_code(&board.record) == DFU_STATUS_ERR_NOTDONE);
    config.least = 71;
    begin(7, 0, 0, 16, 0);
    download(W);
    expect("as many", refuse_close(DFU_STATUS_ERR_FILE) == DFU_STALL);
    config.least = 1;
}

/* A program that never calls dfu_device_closes accepts every image. */
static void never_asked(uint32_t unit, uint32_t sector) {
    row = "never asked";
    begin(7, 5, 10, unit, sector);
    download(W);
    installs(W);
}

int main(void) {
    static const uint32_t flash[][2] = {{1, 0}, {16, 0}, {64, 0}, {256, 0}, {1, 256}, {16, 512}, {64, 256}, {256, 512}};
    for (unsigned i = 0; i < sizeof payload[0]; i++) {
        payload[W][i] = (uint8_t)(i * 37 + 11);
        payload[N][i] = (uint8_t)(i * 91 + 5);
    }
    for (unsigned i = 0; i < sizeof flash / sizeof flash[0]; i++) {
        uint32_t unit = flash[i][0], sector = flash[i][1];
        for (uint8_t code = DFU_STATUS_ERR_TARGET; code <= DFU_STATUS_ERR_FILE; code++) {
            at_the_close(AT_ONCE, unit, sector, code);
            at_the_close(TOLERANT, unit, sector, code);
            at_the_close(NOT_TOLERANT, unit, sector, code);
            after_the_close(AT_ONCE, unit, sector, code, 0);
            for (int manifests = 0; manifests < 2; manifests++) {
                after_the_close(TOLERANT, unit, sector, code, manifests);
                after_the_close(NOT_TOLERANT, unit, sector, code, manifests);
            }
        }
        in_each_mode(7, unit, sector);
        in_each_mode(3, unit, sector);
        never_asked(unit, sector);
    }
    too_short();
    printf("check: images that the program refuses, on %u kinds of flash\n", (unsigned)(sizeof flash / sizeof flash[0]));
    return wrong;
}
