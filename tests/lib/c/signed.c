/* Tests the verdicts of examples/signed/check.c: `signed [RUNS]`. It checks a valid image in every division into two parts, with each bit
 * changed, and with each length; images with wrong numbers and a valid signature; each verdict; and RUNS times garbled bytes, of which a
 * tenth are signed, with the expected verdict computed separately. */
#include "signed.h"

static int wrong;
static unsigned long checks;

static void expect(const char *row, enum signed_verdict wanted, enum signed_verdict found) {
    checks++;
    if (wanted != found) {
        if (wrong++ < 20)
            printf("signed: %s: wanted '%s', found '%s'\n", row, signed_name(wanted), signed_name(found));
    }
}

static void expect_not(const char *row, enum signed_verdict found) {
    checks++;
    if (found == SIGNED_TAKEN && wrong++ < 20)
        printf("signed: %s: it is taken\n", row);
}

static enum signed_verdict says(void) {
    struct signed_image told;
    return verdict_of(made, length, length - length % 16, &told);
}

/* A valid image is accepted in every division into two parts, and its fields are returned. */
static void in_parts(void) {
    struct signed_image told;
    make(LEAST, HARDWARE, 0);
    for (size_t front = 0; front <= length; front++) {
        expect("in two parts", SIGNED_TAKEN, verdict_of(made, length, front, &told));
        expect("what it is", SIGNED_TAKEN, told.program == 32 && told.length == 200 && told.counter == LEAST && told.major == 1
                   && told.minor == 2 && told.revision == 3 && told.build == 77 ? SIGNED_TAKEN : SIGNED_NO_HEADER);
    }
}

static void each_bit(void) {
    struct signed_image told, none = {0};
    make(LEAST, HARDWARE, 0);
    for (size_t bit = 0; bit < 8 * length; bit++) {
        made[bit / 8] ^= (uint8_t)(1 << bit % 8);
        expect_not("a bit", verdict_of(made, length, length - length % 16, &told));
        expect_not("a bit: nothing is told", memcmp(&told, &none, sizeof told) ? SIGNED_TAKEN : SIGNED_NO_HEADER);
        made[bit / 8] ^= (uint8_t)(1 << bit % 8);
    }
}

static void each_length(void) {
    struct signed_image told;
    make(LEAST, HARDWARE, 0);
    for (size_t count = 0; count < length; count++)
        expect_not("shorter", verdict_of(made, count, count - count % 16, &told));
    for (unsigned byte = 0; byte < 256; byte++) {
        made[length] = (uint8_t)byte;
        expect("one byte longer", SIGNED_WRONG_LENGTHS, verdict_of(made, length + 1, length, &told));
    }
    memcpy(made + length, made, length);
    expect("twice", SIGNED_WRONG_LENGTHS, verdict_of(made, 2 * length, 0, &told));
}

/* Changes each field that holds a length; the maker signs the result. */
static void lies(void) {
    static const uint32_t values[] = {0, 1, 2, 3, 4, 5, 6, 8, 16, 31, 32, 33, 0x7f, 0xff, 0x7fff, 0xfffc, 0xffff, 0x7fffffff, 0x80000000,
                                      0xffffff00, 0xfffffffc, 0xffffffff};
    make(LEAST, HARDWARE, 0);
    const size_t places[] = {8, 10, 12, body + 2, body + 6, body + 14, protect + 2, protect + 6, protect + 42, protect + 78};
    for (size_t i = 0; i < sizeof places / sizeof places[0]; i++)
        for (size_t v = 0; v < sizeof values / sizeof values[0] + 2; v++) {
            make(LEAST, HARDWARE, 0);
            const unsigned count = places[i] == 12 ? 4 : 2;
            const uint32_t value = made[places[i]] | (uint32_t)made[places[i] + 1] << 8;
            const uint32_t to = v < sizeof values / sizeof values[0] ? values[v] : v % 2 ? value + 1 : value - 1;
            if (value == (count == 2 ? to & 0xffff : to))
                continue;
            put(places[i], to, count);
            if (places[i] < protect)
                sign(0);
            expect_not("a length that lies", says());
        }
}

/* Changes a bit of the magic number, or sets a flag; the maker signs the result. */
static void header(void) {
    for (unsigned bit = 0; bit < 32; bit++) {
        make(LEAST, HARDWARE, 0);
        made[bit / 8] ^= (uint8_t)(1 << bit % 8);
        sign(0);
        expect("the magic number", SIGNED_NO_HEADER, says());
        make(LEAST, HARDWARE, 0);
        put(16, 1u << bit, 4);
        sign(0);
        expect("flags", SIGNED_WRONG_FLAGS, says());
    }
}

static void each_verdict(void) {
    make(LEAST + 1, HARDWARE, 0), expect("newer", SIGNED_TAKEN, says());
    make(0xffffffff, HARDWARE, 0), expect("newest", SIGNED_TAKEN, says());
    make(0x30000, HARDWARE, 0), expect("newer, by its high bytes", SIGNED_TAKEN, says());
    make(LEAST - 1, HARDWARE, 0), expect("older", SIGNED_OLDER, says());
    make(LEAST, HARDWARE + 1, 0), expect("another board", SIGNED_OTHER_BOARD, says());
    make(LEAST, HARDWARE + 256, 0), expect("another board, by its high byte", SIGNED_OTHER_BOARD, says());
    make(LEAST, HARDWARE, 1), expect("another key", SIGNED_OTHER_KEY, says());
    memcpy(made + protect + 44, made + protect + 8, 32), expect("another hash of a key", SIGNED_OTHER_KEY, says());
    make(LEAST, HARDWARE, 1);
    crypto_hash_sha256(made + protect + 44, keys[0], SIGNED_KEY);
    expect("another key that says it is the board's", SIGNED_WRONG_SIGNATURE, says());
    make(LEAST, HARDWARE, 0), memset(made + protect + 80, 0, 64), expect("zeros", SIGNED_WRONG_SIGNATURE, says());
    make(LEAST, HARDWARE, 0), made[40] ^= 1, expect("another program", SIGNED_WRONG_DIGEST, says());
    begin(32, 200), add_counter(LEAST), end(), sign(0), expect("no board", SIGNED_OTHER_BOARD, says());
    begin(32, 200), add_hardware(HARDWARE), end(), sign(0), expect("no counter", SIGNED_NO_COUNTER, says());
    begin(32, 200), end(), sign(0), expect("no protected TLV", SIGNED_OTHER_BOARD, says());
    begin(512, 0), add_hardware(HARDWARE), add_counter(LEAST), end(), sign(0), expect("a large header", SIGNED_TAKEN, says());
    begin(32, 200), add_counter(9), add_hardware(7), add_counter(9), end(), sign(0), expect("a counter twice", SIGNED_WRONG_TLVS, says());
    begin(32, 200), add_counter(9), add(0xb0, 2), add(0, 2), add_hardware(7), end(), sign(0), expect("one more", SIGNED_TAKEN, says());
    /* Omits one of the unprotected TLVs, which the signature doesn't cover. */
    for (size_t i = 0; i < 3; i++) {
        static const uint32_t at[] = {4, 40, 76}, bytes[] = {36, 36, 68};
        static const enum signed_verdict verdicts[] = {SIGNED_WRONG_DIGEST, SIGNED_OTHER_KEY, SIGNED_WRONG_SIGNATURE};
        make(LEAST, HARDWARE, 0);
        memmove(made + protect + at[i], made + protect + at[i] + bytes[i], length - protect - at[i] - bytes[i]);
        length -= bytes[i], put(protect + 2, (uint32_t)(length - protect), 2);
        expect("one is missing", verdicts[i], says());
    }
    begin(32, 200), add_hardware(HARDWARE), end(), sign(0);
    add(0x50, 2), add(4, 2), add(99, 4), put(protect + 2, (uint32_t)(length - protect), 2);
    expect("an unprotected counter", SIGNED_WRONG_TLVS, says());
    for (unsigned more = 1; more < 4; more++) {
        make(LEAST, HARDWARE, 0), length += more, put(protect + 2, (uint32_t)(length - protect), 2);
        expect("bytes after the last TLV", SIGNED_WRONG_TLVS, says());
    }
    begin(16, 216), put(16, 0, 4), add_hardware(HARDWARE), add_counter(LEAST), end(), sign(0);
    expect("a small header", SIGNED_WRONG_LENGTHS, says());
    begin(32, 200), length = protect = body, put(10, 0, 2), sign(0), expect("none are protected", SIGNED_WRONG_LENGTHS, says());
}

/* Garbled bytes are accepted only if they equal the signed ones. */
static void garbled(void) {
    static uint8_t right[MOST];
    struct signed_image told;
    size_t whole;
    make(LEAST, HARDWARE, 0);
    memcpy(right, made, whole = length);
    if (roll(4) == 0) {
        for (length = roll(400), whole = 0; whole < length; whole++)
            made[whole] = (uint8_t)roll(256);
        if (roll(2) && length > 16)
            put(0, 0x96f3b83d, 4), put(8, 32 + roll(3), 2), put(10, roll(64), 2), put(12, roll(300), 4), put(16, 0, 4);
        whole = MOST + 1;
    }
    for (uint32_t edits = roll(6); edits > 0 && length > 0; edits--)
        made[roll((uint32_t)length)] = (uint8_t)roll(256);
    if (roll(4) == 0)
        length = roll((uint32_t)length + 20);
    const int is_right = length == whole && memcmp(made, right, whole) == 0;
    expect("garbled", is_right ? SIGNED_TAKEN : SIGNED_NO_HEADER,
           verdict_of(made, length, roll((uint32_t)length + 1), &told) == SIGNED_TAKEN ? SIGNED_TAKEN : SIGNED_NO_HEADER);
}

/* Makes random protected TLVs, and signs them. They are valid with exactly one counter that is high enough, one number of this board, and
 * lengths that end with the area. */
static void garbled_and_signed(void) {
    unsigned counters = 0, boards = 0, is_right = 1, lies_about = 0;
    begin(32 + roll(40), roll(100));
    for (uint32_t more = roll(6); more > 0; more--) {
        const uint32_t kind = roll(8), value = LEAST - 1 + roll(3);
        if (kind < 3)
            add_counter(value), counters++, is_right &= value >= LEAST;
        else if (kind < 6)
            add_hardware(HARDWARE + roll(8) / 7), boards++, is_right &= made[length - 2] == HARDWARE;
        else {
            const uint32_t bytes = roll(20), lie = roll(6) ? 0 : 1 + roll(400);
            add(0xb0 + roll(9), 2), add(bytes + lie, 2), is_right &= lie == 0;
            length += bytes, lies_about = lie;
        }
        if (lies_about)
            break;
    }
    if (!lies_about && roll(12) == 0)
        length += 1 + roll(3), is_right = 0;
    end();
    sign(0);
    expect("garbled and signed", is_right && counters == 1 && boards == 1 ? SIGNED_TAKEN : SIGNED_NO_HEADER,
           says() == SIGNED_TAKEN ? SIGNED_TAKEN : SIGNED_NO_HEADER);
}

int main(int count, char **words) {
    const unsigned long runs = count > 1 ? strtoul(words[1], NULL, 10) : 1000;
    if (sodium_init() < 0)
        return 2;
    make_keys();
    in_parts();
    each_bit();
    each_length();
    lies();
    header();
    each_verdict();
    for (unsigned long i = 0; i < runs; i++)
        i % 10 ? garbled() : garbled_and_signed();
    printf("signed: %lu checks, %lu of garbled bytes\n", checks, runs);
    return wrong != 0;
}
