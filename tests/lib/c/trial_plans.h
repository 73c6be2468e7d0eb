/* The plans of trial.c, and a model of a board. The state of the model is a `struct view`: the base and the image on trial, by their first
 * bytes, the remaining starts of the image on trial, and 1 once an image was confirmed. */
struct view {
    int base, on_trial, left, armed; /* on_trial is -1 if no image is on trial */
};
static struct view now;
static int started; /* number of starts of the image on trial since it was downloaded */
static int running; /* offset of the running image, or -1 */
static struct dfu_standing looks[8]; /* results of the last calls of dfu_trial_look */
static unsigned looked;

/* Returns the first byte of an image, which determines its other bytes and its length. Returns -3 if another byte is wrong, and -2 if the
 * length is. */
static int number_of(const struct dfu_place *place) {
    const int number = part[place->at];
    for (uint32_t i = 1; i < place->length; i++)
        if (part[place->at + i] != (uint8_t)(number + 7 * (int)i))
            return -3;
    return place->length == (uint32_t)(number % 16 + 16) ? number : -2;
}
static struct view see(void) {
    struct dfu_standing s;
    struct dfu_place place;
    const struct view none = {-9, -9, -9, -9};
    if (dfu_trial_look(&trial, &s) != 0 || dfu_device_image(&device, &place) != 0 || memcmp(&place, &s.active, sizeof place) != 0)
        return none;
    looks[looked++ % 8] = s;
    const struct view on = {number_of(&s.base), number_of(&s.active), (int)s.left, 1};
    const struct view settled = {number_of(&s.active), -1, 0, (int)s.is_confirmed};
    return s.on_trial ? on : settled;
}
static int is_same(struct view a, struct view b) {
    return a.base == b.base && a.on_trial == b.on_trial && a.left == b.left && a.armed == b.armed;
}
/* Checks that the state of the flash is one of these `n` views, and keeps that view in `now`. */
static void may(const char *what, int n, const struct view *any) {
    const struct view view = see();
    int found = 0;
    for (int i = 0; i < n; i++)
        found |= is_same(view, any[i]);
    expect(what, found);
    now = view;
}
static struct view ended(struct view v) {
    const struct view to = {v.base, -1, 0, v.armed};
    return to;
}
static struct view taken(struct view v, int number) {
    const struct view on = {v.base, number, (int)trial.tries.tries, 1}, settled = {number, -1, 0, 0};
    return v.armed ? on : settled;
}
static struct view confirmed(struct view v) {
    const struct view to = {v.on_trial != -1 ? v.on_trial : v.base, -1, 0, 1};
    return to;
}

static void download(int number) {
    uint8_t image[32];
    const struct view was = now, either[2] = {was, ended(was)};
    const uint16_t length = (uint16_t)(number % 16 + 16);
    for (int i = 0; i < length; i++)
        image[i] = (uint8_t)(number + 7 * i);
    const int32_t n = send(image, length);
    if (is_off)
        return;
    may("the first block of a download", 2, either);
    expect("a download of which the trial did not end is stalled", now.on_trial == -1 || n == DFU_STALL);
    if (n != 0)
        return;
    const struct view before = now, after[2] = {before, taken(before, number)};
    is_offered = 1, started = 0;
    finish();
    if (is_off)
        return;
    may("the end of a download", 2, after);
    is_offered = 0;
}
/* Checks that a start with any earlier standing does the same as a start that reads the images. */
static void start_by_looks(void) {
    for (unsigned i = 0; i < 8; i++) {
        struct dfu_ask asks[2];
        struct dfu_starting told[2];
        memset(asks, 7, sizeof asks), memset(told, 7, sizeof told);
        const int32_t n = dfu_trial_start(&trial, &asks[0], &told[0]), by = dfu_trial_start_from(&trial, &looks[i], &asks[1], &told[1]);
        expect("a start by an older look", n == by && memcmp(&asks[0], &asks[1], sizeof asks[0]) == 0
            && memcmp(&told[0], &told[1], sizeof told[0]) == 0);
    }
}
static void start(void) {
    struct dfu_place place = {0, 0};
    start_by_looks();
    const struct view was = now;
    const struct view after[2] = {was, was.on_trial == -1 ? was : was.left > 0
        ? (struct view){was.base, was.on_trial, was.left - 1, 1} : ended(was)};
    expect("some image starts", dfu_trial_boot(&trial, &place) == 0);
    if (is_off)
        return;
    running = (int)place.at, starts++;
    may("a start", 2, after);
    const int number = number_of(&place), is_tried = number == was.on_trial && was.left > 0 && now.left == was.left - 1;
    expect("the base starts, or the image on trial", number == was.base || is_tried);
    started += is_tried;
    expect("it starts at most so many times", started <= (int)trial.tries.tries || now.on_trial == -1);
}
static void confirm(void) {
    struct dfu_standing s;
    dfu_trial_look(&trial, &s);
    const struct view was = now, after[2] = {was, running == (int)s.active.at ? confirmed(was) : was};
    const int32_t n = dfu_trial_accept(&trial, (uint32_t)running);
    if (is_off)
        return;
    may("a confirmation", 2, after);
    expect("a confirmation says what it came to", n != 0 || running != (int)s.active.at || is_same(now, confirmed(was)));
}
static void give_up(void) {
    const struct view was = now, after[2] = {was, ended(was)};
    const int32_t n = dfu_trial_give_up(&trial);
    if (is_off)
        return;
    may("an end", 2, after);
    expect("an end says what it came to", (n == 0) == (now.on_trial == -1));
    running = -1;
}
static void upload(void) {
    const struct view was = now, after[2] = {was, was.on_trial != -1 && was.left == 0 ? ended(was) : was};
    running = -1, dfu_device_begin(&device);
    const int32_t n = request(0xa1, DFU_UPLOAD, block, 64);
    if (is_off)
        return;
    may("an upload", 2, after);
    const int is_spent = now.on_trial != -1 && now.left == 0, next = now.on_trial != -1 ? now.on_trial : now.base;
    expect("an upload gives what the next start runs, or is stalled", is_spent ? n == DFU_STALL : n == next % 16 + 16 && out[0] == next);
}
/* Checks the state after a loss of power: unchanged, or the trial has ended, or a start, a confirmation or the offered image is recorded.
 */
static void after_a_loss(int offered) {
    const struct view was = now;
    struct view any[5] = {was, ended(was), confirmed(was), was, was};
    if (was.on_trial != -1 && was.left > 0)
        any[3].left--;
    if (is_offered)
        any[4] = taken(was, offered);
    may("a loss of power", 5, any);
    is_offered = 0, running = -1;
    started = now.on_trial != -1 ? (int)trial.tries.tries - now.left : 0;
}

/* Plans. s is a start, c a confirmation, e an end of the trial, u an upload, and D with a letter a download of the image that begins with
 * that letter. */
static const char *const all[] = {
    "scDasscDbssssDcscs", "sDascDbsDcsscDdsss", "scDaDbDcscDdsDesssss", "scDasesDbsesDcsc", "DaDbscDcscDdss", "scDasscDbsssDbsscss",
    "scDausuDbssusuDcusscu", "uscDasususususuDcscDdssuDesssssu",
};
static void step(char c, int image) {
    if (c == 'D')
        download(image);
    else if (c == 's')
        start();
    else if (c == 'c' && running >= 0)
        confirm();
    else if (c == 'e')
        give_up();
    else if (c == 'u')
        upload();
}
static unsigned long run(const char *plan, long at) {
    static uint8_t first[16];
    const unsigned long before = operations;
    for (int i = 0; i < 16; i++)
        first[i] = (uint8_t)(7 * i);
    power_comes(first, sizeof first);
    now = see(), running = -1, started = 0, is_offered = 0;
    fuse = at;
    runs++;
    while (*plan) {
        const char c = *plan++;
        const int image = c == 'D' ? *plan++ : 0;
        step(c, image);
        if (is_off)
            is_off = 0, after_a_loss(image);
    }
    return operations - before;
}
static void plans(unsigned long wanted) {
    static const uint32_t settings[][2] = {{16, 2}, {1, 2}, {64, 2}, {16, 3}, {1, 5}, {16, 14}};
    for (unsigned long round = 0; runs < wanted && !wrong; round++) {
        config.unit = trial.tries.unit = settings[round % 6][0], trial.tries.tries = settings[round % 6][1];
        for (size_t p = 0; p < sizeof all / sizeof *all; p++) {
            harm = WELL;
            const long most = (long)run(all[p], -1);
            for (long at = 0; at < most && runs < wanted; at++)
                for (harm = FAILS; harm <= CUT; harm++)
                    for (tear = 0; tear < TEARS; tear++)
                        dice = (uint32_t)(at * 77 + tear + (long)round), run(all[p], at);
        }
    }
}
