/* Runs sessions of the proved host with a board that runs new images on trial. Power is lost at every point of a session, and at every pair
 * of points: before, during and after each operation of the flash, between the mark of a start and its image, before each action of the
 * host, and between an answer and the work after it. Or an operation fails, or reports a false success. The checks are:
 *
 * - If the host reports Verified or Installed, its last reset started the payload; or the mark of that start was harmed, and the payload is
 *   the next image to be started. This holds if the host notices each loss of power. If it notices none, power may also have been lost
 *   during that reset (payloads that fault are left out there).
 * - With 2 tries, and 2 more for each loss of power, the session is Verified. With fewer tries it is Verified, or Different once all tries
 *   are used up.
 * - The payload starts at most `tries` times, and not again after the previous image was started again.
 *
 * `trial_sessions [without]` prints the count of each report. With `without` an upload ends no trial; then Verified must be false in some
 * session, which shows that this search detects it. */
#include "trial_board.h"

static uint8_t file[LENGTH + 16];
static unsigned long sessions, verified, different;
static int is_verified, tightest; /* kind of the session; bit n: one try less than enough was too few with n losses of power */

static void expect(const char *what, int holds) {
    if (!holds && wrong++ < 10)
        printf("trial sessions: %s; unit %u, attributes %u, tries %u, behaviour %d, armed %d, cuts %ld and %ld of %ld, harm at %ld\n", what,
               (unsigned)config.unit, (unsigned)config.attributes, (unsigned)trial.tries.tries, (int)behaviour, is_armed, cuts[0], cuts[1],
               points, harm_at);
}

/* Makes the file: the payload, and a suffix with the CRC of all bytes before it. */
static void make_file(void) {
    static const uint8_t suffix[12] = {0xff, 0xff, 0xff, 0xff, 0xff, 0xff, 0x00, 0x01, 'U', 'F', 'D', 16};
    uint32_t sum = 0xffffffff;
    fill(file, PAYLOAD);
    memcpy(file + LENGTH, suffix, sizeof suffix);
    for (size_t i = 0; i < LENGTH + 12; i++) {
        sum ^= file[i];
        for (int bit = 0; bit < 8; bit++)
            sum = sum >> 1 ^ (sum & 1 ? 0xedb88320 : 0);
    }
    for (size_t i = 0; i < 4; i++)
        file[LENGTH + 12 + i] = (uint8_t)(sum >> 8 * i);
}

/* Carries out an action of the host: the board answers, and then does the work. */
static struct dfu_action action;
static uint32_t seen;
static size_t count;
static void answer(void) {
    int32_t n = 0;
    is_in_reset = action.what == DFU_RESET;
    point();
    seen = action.what == DFU_WAIT ? DFU_SEEN_WAIT : DFU_SEEN_RESET;
    count = 0;
    if (action.what == DFU_WAIT)
        dfu_device_elapse(&device, action.value);
    else if (action.what == DFU_RESET)
        dfu_device_reset(&device);
    else
        n = serve(action.setup, file + action.from);
    if (action.what == DFU_SEND) {
        seen = n < 0 ? DFU_SEEN_STALL : action.setup[0] & 0x80 ? DFU_SEEN_BYTES : DFU_SEEN_ACK;
        count = n < 0 ? 0 : (size_t)n;
    } else {
        go_on(); /* the host finds the device again only once it is back */
    }
    point();
    is_in_reset = 0;
}
static void work(void) {
    dfu_device_work(&device);
    go_on();
}
/* Makes a call. Returns 1 if power is lost during it; then the board starts again, and may lose power during that start too. */
static int is_cut(void (*what)(void)) {
    switch (setjmp(power)) {
    case 0:
        what();
        return 0;
    default:
        is_in_reset = 0;
        start();
        return 1;
    }
}

/* Runs a session with the board. Returns its report. */
static uint32_t offer(void) {
    static const struct dfu_ids ids = {0x0100, 1, 0x1209};
    static struct dfu_session session;
    static int is_gone;
    uint8_t descriptor[9], none[1];
    is_gone = 0;
    expect("a descriptor", dfu_device_functional(&config, descriptor) == 9);
    const int32_t refusal = is_verified ? dfu_host_verified(&session, file, sizeof file, descriptor, 9, &ids, 1000, 9)
                                        : dfu_host_download(&session, file, sizeof file, descriptor, 9, &ids, 1000, 9);
    expect("a session", refusal == 0);
    while (dfu_host_next(&session, file, LENGTH, &action) == 0 && action.what != DFU_DONE) {
        if (is_gone) /* power was lost in the work after the previous answer */
            seen = DFU_SEEN_RESTART, count = 0, is_gone = 0;
        else if (is_cut(answer))
            seen = DFU_SEEN_RESTART, count = 0;
        else
            is_gone = is_cut(work);
        if (seen == DFU_SEEN_RESTART && is_blind)
            seen = DFU_SEEN_NOTHING;
        dfu_host_take(&session, file, LENGTH, none, 0, seen, out, count);
    }
    return action.value;
}

/* Checks the report, and the state of the board that it asserts. */
static void judge(uint32_t report) {
    const uint32_t done = is_verified ? DFU_VERIFIED : config.attributes & 4 ? DFU_INSTALLED : DFU_UNCONFIRMED;
    const int is_next_yet = is_mark_harmed && is_next(), was_unseen = is_blind && was_in_reset;
    if (report == DFU_VERIFIED || report == DFU_INSTALLED)
        expect("it is said to be in place, and another image was started", first_ran == PAYLOAD || is_next_yet || was_unseen);
    sessions++;
    verified += report == DFU_VERIFIED, different += report == DFU_DIFFERENT;
    if (harm_at != NEVER || is_blind || is_without)
        return;
    if (is_armed && behaviour == FAULTS && is_verified)
        expect("an image that faults is different", report == DFU_DIFFERENT && running == BASE);
    else if (!is_verified || !is_armed || behaviour == CONFIRMS || trial.tries.tries >= 2u + 2u * (unsigned)lost)
        expect("the session ends well", report == done);
    else
        expect("Verified, or Different once all is spent",
               report == done || (report == DFU_DIFFERENT && running == BASE && spent() == trial.tries.tries));
    if (report == DFU_DIFFERENT && trial.tries.tries == 1u + 2u * (unsigned)lost)
        tightest |= 1 << lost;
}

/* Installs another image on trial first, and starts it `often` times; installs none if `often` is NEVER. */
static void install_other(int often) {
    uint8_t image[LENGTH];
    const uint8_t status[8] = {0xa1, DFU_GETSTATUS, 0, 0, 0, 0, 6, 0};
    fill(image, OTHER);
    if (often == NEVER)
        return;
    dfu_device_begin(&device);
    for (int at = 0, number = 0; at <= LENGTH; at += TRANSFER, number++) {
        const int length = LENGTH - at < TRANSFER ? LENGTH - at : TRANSFER;
        const uint8_t setup[8] = {0x21, DFU_DNLOAD, (uint8_t)number, 0, 0, 0, (uint8_t)length, 0};
        serve(setup, image + at), serve(status, image);
    }
    const uint8_t close[8] = {0x21, DFU_DNLOAD, (LENGTH + TRANSFER - 1) / TRANSFER, 0, 0, 0, 0, 0};
    serve(close, image), serve(status, image);
    for (int i = 0; i < often; i++)
        start();
}
/* Runs a session with these losses of power, or with this fault, on a board with another image on trial, or without one if `often` is
 * NEVER. */
static void session(int often, long first, long second, long harmed) {
    uint8_t image[LENGTH];
    fill(image, BASE);
    lost = 2, harm_at = NEVER, cuts[0] = first, cuts[1] = second;
    memset(part, 0xff, sizeof part);
    expect("a format", dfu_device_format(&device, image, LENGTH) == 0 && dfu_device_power_on(&device) == 0);
    if (is_armed)
        expect("the base is confirmed", dfu_trial_accept(&trial, 2 * SECTOR) == 0);
    install_other(often);
    start();
    runs = is_back = is_mark_harmed = was_in_reset = lost = 0, points = operations = 0, harm_at = harmed;
    judge(offer());
    lost = 2, harm_at = NEVER;
    for (uint32_t i = 0; i < trial.tries.tries + 2 && (is_armed || behaviour != FAULTS); i++)
        start();
    expect("in the end it is the base, or a payload that is confirmed, or was never on trial",
           running == (is_armed && behaviour != CONFIRMS ? BASE : PAYLOAD) || is_without || is_blind || harmed != NEVER);
}

/* Tries a loss of power at each point, if `is_in_pairs` also at each pair of points, and a fault of each operation. */
static void search(int often, int is_in_pairs) {
    session(often, NEVER, NEVER, NEVER);
    const long most = points, all = operations;
    for (long first = 0; first < most; first++) {
        session(often, first, NEVER, NEVER);
        const long more = points;
        for (long second = first + 1; is_in_pairs && second < more; second++)
            session(often, first, second, NEVER);
    }
    for (long at = 0; at < all; at++)
        for (harm = FAILS; harm < HARMS; harm++)
            session(often, NEVER, NEVER, at);
}

int main(int words, char **word) {
    static const uint32_t settings[][3] = {{16, 2, 7}, {16, 3, 7}, {16, 4, 7}, {16, 5, 7}, {16, 6, 7}, {1, 3, 3}, {64, 2, 7}, {16, 4, 15}};
    is_without = words > 1 && strcmp(word[1], "without") == 0;
    make_file();
    for (size_t i = 0; i < sizeof settings / sizeof *settings; i++) {
        config.unit = trial.tries.unit = settings[i][0], trial.tries.tries = settings[i][1], config.attributes = (uint8_t)settings[i][2];
        config.manifest_ms = config.attributes & 4 ? 0 : 10;
        for (int turn = 0; turn < 8; turn++) {
            is_armed = turn & 1, is_verified = (turn & 2) != 0, is_blind = (turn & 4) != 0;
            for (behaviour = QUIET; behaviour < BEHAVIOURS; behaviour++)
                if (behaviour != FAULTS || (is_armed && !is_blind))
                    for (int often = NEVER; often <= (is_armed ? (int)trial.tries.tries : NEVER); often++)
                        search(often, behaviour == QUIET && is_verified && is_armed && !is_blind && often == NEVER);
        }
    }
    expect("2 tries are too few for a loss of power in a start, and so on", is_without || (tightest & 6) == 6);
    printf("%lu sessions, %lu verified, %lu different, %d wrong\n", sessions, verified, different, wrong);
    return wrong != 0;
}
