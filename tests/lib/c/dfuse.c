/* Tests the host of DfuSe (dfuse_host.h) with values worked out by hand: memory maps, the whole dialogue of a session with two elements,
 * and refused plans. Then it makes many calls with invalid records: each must return an answer or a refusal. */
#include "dfuse_host.h"

#include <stdio.h>
#include <stdlib.h>
#include <string.h>

static int passed, failed;

static void is(int holds, const char *what)
{
    passed += holds != 0;
    failed += holds == 0;
    if (!holds)
        printf("wrong: %s\n", what);
}

/* State of the random generator, which gives the same numbers on each machine and in each run. */
static uint64_t seed = 1;

static uint32_t chance(void)
{
    seed ^= seed << 13, seed ^= seed >> 7, seed ^= seed << 17;
    return (uint32_t)(seed >> 16);
}

static const char f4[] = "@Internal Flash  /0x08000000/04*016Kg,01*064Kg,07*128Kg";

#define EIGHT "1*1g,1*1g,1*1g,1*1g,1*1g,1*1g,1*1g,1*1g,"

/* Strings with the result of reading each: a refusal, or 0 and the ranges. */
static const struct {
    const char *text;
    int32_t answer;
    uint64_t name, ranges, start, size; /* start and size of the last range */
    uint32_t count, access;
} maps[] = {
    {"@Internal Flash  /0x08000000/04*016Kg,01*064Kg,07*128Kg", 0, 14, 3, 0x08020000, 131072, 7, 7},
    {"@Option Bytes  /0x1FFFC000/01*016 e", 0, 12, 1, 0x1fffc000, 16, 1, 5},
    {"@Device Feature/0xFFFF0000/01*004 e", 0, 14, 1, 0xffff0000, 4, 1, 5},
    {"@Option Bytes   /0x1FFF7800/01*040 e/0x1FFFF800/01*040 e", 0, 12, 2, 0x1ffff800, 40, 1, 5},
    {"@B /0x08000000/8*001Ka,056*001Kg", 0, 1, 2, 0x08002000, 1024, 56, 7},
    {"@X/0/2*3a", 0, 1, 1, 0, 3, 2, 1},
    {"Flash", DFUSE_NO_MAP, 0, 0, 0, 0, 0, 0},
    {"@F", DFUSE_NO_MAP, 0, 0, 0, 0, 0, 0},
    {"@F/0x08000000", DFUSE_BAD_ADDRESS, 0, 0, 0, 0, 0, 0},
    {"@F/0x123456789/1*1Kg", DFUSE_BAD_ADDRESS, 0, 0, 0, 0, 0, 0},
    {"@F/0x0/*1Kg", DFUSE_BAD_COUNT, 0, 0, 0, 0, 0, 0},
    {"@F/0x0/0*1Kg", DFUSE_BAD_COUNT, 0, 0, 0, 0, 0, 0},
    {"@F/0x0/1*Kg", DFUSE_BAD_SIZE, 0, 0, 0, 0, 0, 0},
    {"@F/0x0/1*0Kg", DFUSE_BAD_SIZE, 0, 0, 0, 0, 0, 0},
    {"@F/0x0/1*1K", DFUSE_BAD_TYPE, 0, 0, 0, 0, 0, 0},
    {"@F/0x0/1*1Kh", DFUSE_BAD_TYPE, 0, 0, 0, 0, 0, 0},
    {"@F/0x0/1*1Gg", DFUSE_BAD_TYPE, 0, 0, 0, 0, 0, 0},
    {"@F/0xFFFFFC00/2*1Kg", DFUSE_PAST_THE_END, 0, 0, 0, 0, 0, 0},
    {"@F/0xFFFFFC00/1*1Kg", 0, 1, 1, 0xfffffc00, 1024, 1, 7},
    {"@F/0/" EIGHT EIGHT EIGHT EIGHT "1*1g", DFUSE_TOO_MANY_RANGES, 0, 0, 0, 0, 0, 0},
    {"@F/0/" EIGHT EIGHT EIGHT "1*1g,1*1g,1*1g,1*1g,1*1g,1*1g,1*1g,1*1g", 0, 1, 32, 31, 1, 1, 7},
    {"@F/0x0/2*1Kg/0x400/1*1Kg", DFUSE_OVERLAPS, 0, 0, 0, 0, 0, 0},
    {"@F/0x0/1*1Kg;", DFUSE_TRAILING, 0, 0, 0, 0, 0, 0},
};

static void try_maps(void)
{
    for (size_t at = 0; at < sizeof maps / sizeof *maps; at++) {
        struct dfuse_map map = {0, 0};
        struct dfuse_range range = {0, 0, 0, 0};
        const uint8_t *text = (const uint8_t *)maps[at].text;
        size_t length = strlen(maps[at].text);
        is(dfuse_read_map(text, length, &map) == maps[at].answer, maps[at].text);
        is(map.name == maps[at].name && map.ranges == maps[at].ranges, maps[at].text);
        if (maps[at].answer != 0)
            continue;
        is(dfuse_read_range(text, length, (uint32_t)map.ranges - 1, &range) == 0 && range.start == maps[at].start
               && range.size == maps[at].size && range.count == maps[at].count && range.access == maps[at].access, maps[at].text);
        is(dfuse_read_range(text, length, (uint32_t)map.ranges, &range) == DFUSE_NO_RANGE, maps[at].text);
    }
}

static const uint8_t one[] = {1, 2, 3, 4}, two[] = {5, 6};
static const struct dfuse_element image[] = {{.address = 0x08000000, .bytes = one, .length = 4},
                                             {.address = 0x08004000, .bytes = two, .length = 2}};
static const struct dfuse_plan plan = {0x08000000, 1000, 2, 2048, 32, 1};

/* The expected requests, each with its setup and its body; W is a wait of 5 ms. answer_to returns the device's answers. */
static const char *const dialogue[] = {
    "2106000000000000", "a105000000000100",
    "2101000000000500 4100000008", "a103000000000600", "W", "a103000000000600",
    "2101000000000500 4100400008", "a103000000000600", "W", "a103000000000600",
    "2101000000000500 2100400008", "a103000000000600", "W", "a103000000000600",
    "2101020000000200 0506", "a103000000000600", "W", "a103000000000600",
    "2101000000000500 2100400008", "a103000000000600", "W", "a103000000000600",
    "2106000000000000", "a102020000000200", "2106000000000000",
    "2101000000000500 2100000008", "a103000000000600", "W", "a103000000000600",
    "2101020000000400 01020304", "a103000000000600", "W", "a103000000000600",
    "2101000000000500 2100000008", "a103000000000600", "W", "a103000000000600",
    "2106000000000000", "a102020000000400", "2106000000000000",
    "2101020000000000", "a103000000000600",
};

/* Writes two hexadecimal digits for each byte, and a terminating 0. Returns the address of that 0. */
static char *spell_bytes(char *out, const uint8_t *bytes, uint64_t count)
{
    static const char digits[] = "0123456789abcdef";
    for (uint64_t at = 0; at < count; at++) {
        *out++ = digits[bytes[at] >> 4];
        *out++ = digits[bytes[at] & 15];
    }
    *out = '\0';
    return out;
}

static void spell(const struct dfuse_action *action, const uint8_t *body, char out[64])
{
    if (action->what == DFU_WAIT) {
        memcpy(out, action->value == 5 ? "W" : "?", 2);
        return;
    }
    out = spell_bytes(out, action->setup, 8);
    if (action->length > 0) {
        *out++ = ' ';
        spell_bytes(out, body, action->length < 8 ? action->length : 8);
    }
}

/* Answers as a device that needs 5 ms for each command. */
static size_t answer_to(const struct dfuse_action *action, int *is_busy, int is_closed, uint8_t answer[6])
{
    static const uint8_t busy[6] = {0, 5, 0, 0, 4, 0}, done[6] = {0, 0, 0, 0, 5, 0}, leaves[6] = {0, 1, 0, 0, 7, 0};
    const uint8_t *from = action->setup[7] == 0 && action->setup[6] == 2 ? two : one;
    size_t count = action->setup[6];
    if (action->setup[1] == 5)
        answer[0] = 2;
    else if (action->setup[1] == 3) {
        memcpy(answer, is_closed ? leaves : *is_busy ? busy : done, 6);
        *is_busy = 0;
    } else
        memcpy(answer, from, count);
    return count;
}

static void try_session(void)
{
    struct dfuse_session session;
    struct dfuse_action action;
    uint8_t body[64], answer[6];
    char said[64];
    int is_busy = 0;
    const size_t steps = sizeof dialogue / sizeof *dialogue;
    is(dfuse_begin(&session, (const uint8_t *)f4, strlen(f4), image, 2, &plan) == 0, "a session begins");
    for (size_t at = 0; at < steps; at++) {
        uint32_t seen;
        size_t count = 0;
        is(dfuse_next(&session, (const uint8_t *)f4, strlen(f4), image, 2, body, sizeof body, &action) == 0, "an action");
        spell(&action, body, said);
        is(strcmp(said, dialogue[at]) == 0, dialogue[at]);
        is_busy = is_busy || (action.setup[1] == 1 && action.what == DFU_SEND);
        if (action.what == DFU_WAIT)
            seen = DFU_SEEN_WAIT;
        else if ((action.setup[0] & 0x80) == 0)
            seen = DFU_SEEN_ACK;
        else {
            seen = DFU_SEEN_BYTES;
            count = answer_to(&action, &is_busy, at == steps - 1, answer);
        }
        is(dfuse_take(&session, (const uint8_t *)f4, strlen(f4), image, 2, seen, answer, count) == 0, "what came of it");
    }
    is(dfuse_next(&session, (const uint8_t *)f4, strlen(f4), image, 2, body, sizeof body, &action) == 0, "the last action");
    is(action.what == DFU_DONE && action.value == DFUSE_VERIFIED && action.more == DFUSE_LEFT, "Verified, and it leaves");
    is(session.work == DFUSE_OVER && session.report == DFUSE_VERIFIED, "it is over");
}

static int32_t begins(const struct dfuse_element *elements, size_t count, uint16_t transfer, const char *map)
{
    struct dfuse_session session;
    struct dfuse_plan with = plan;
    with.transfer = transfer;
    return dfuse_begin(&session, (const uint8_t *)map, strlen(map), elements, count, &with);
}

static void try_refusals(void)
{
    static const struct dfuse_element twice[] = {{.address = 0x08000000, .bytes = one, .length = 4},
                                                 {.address = 0x08000003, .bytes = two, .length = 2}};
    static const struct dfuse_element down[] = {{.address = 0x08004000, .bytes = one, .length = 4},
                                                {.address = 0x08000000, .bytes = two, .length = 2}};
    static const struct dfuse_element beyond[] = {{.address = 0x080fffff, .bytes = two, .length = 2}};
    static const struct dfuse_element options[] = {{.address = 0x1fffc000, .bytes = two, .length = 2}};
    static const struct dfuse_element empty[] = {{.address = 0x08000000, .bytes = one, .length = 0}};
    static const struct dfuse_element system[] = {{.address = 0x08000000, .bytes = one, .length = 4}};
    struct dfuse_session session;
    struct dfuse_action action;
    uint8_t body[4];
    is(begins(image, 2, 0, f4) == DFUSE_NO_TRANSFER, "no transfer size");
    is(begins(image, 0, 8, f4) == DFUSE_EMPTY && begins(empty, 1, 8, f4) == DFUSE_EMPTY, "nothing to write");
    is(begins(down, 2, 8, f4) == DFUSE_NOT_IN_ORDER, "elements that don't ascend");
    is(begins(twice, 2, 8, f4) == DFUSE_OVERLAPPING, "elements that overlap");
    is(begins(beyond, 1, 8, f4) == DFUSE_OUTSIDE, "an element over the end");
    is(begins(options, 1, 8, "@Option Bytes  /0x1FFFC000/01*016 e") == DFUSE_NOT_ERASABLE, "option bytes");
    is(begins(system, 1, 8, "@System /0x08000000/01*016Ka") == DFUSE_NOT_WRITABLE, "a page that is read alone");
    is(begins(system, 1, 8, "@Secret /0x08000000/01*016Kf") == DFUSE_NOT_READABLE, "a page that is never read");
    is(begins(image, 2, 8, "@F") == DFUSE_NO_MAP, "no map");
    is(begins(image, 2, 8, f4) == 0, "none of these");
    is(dfuse_begin(&session, (const uint8_t *)f4, strlen(f4), image, 2, &plan) == 0, "a session begins");
    is(dfuse_take(&session, (const uint8_t *)f4, strlen(f4), image, 2, DFU_SEEN_RESET, body, 0) == DFU_NO_SEEN, "there is no reset");
    is(dfuse_take(&session, (const uint8_t *)"@F", 2, image, 2, DFU_SEEN_ACK, body, 0) == DFU_NO_SESSION, "another map");
    session.work = DFUSE_WRITE;
    session.at = 0x08004000;
    session.end = 0x08004002;
    session.step = 5;
    is(dfuse_next(&session, (const uint8_t *)f4, strlen(f4), image, 2, body, 4, &action) == DFUSE_NO_ROOM, "no room for a command");
    session.version++;
    is(dfuse_next(&session, (const uint8_t *)f4, strlen(f4), image, 2, body, 4, &action) == DFU_NO_SESSION, "another version");
}

/* Makes calls with random records, about half of whose bytes are less than 8. */
static void try_garbled(long count)
{
    static uint8_t body[65536], bytes[64];
    struct dfuse_session session;
    struct dfuse_action action;
    long answered = 0;
    for (long at = 0; at < count; at++) {
        uint8_t *raw = (uint8_t *)&session;
        for (size_t i = 0; i < sizeof session; i++)
            raw[i] = (uint8_t)(chance() & (chance() & 1 ? 0xff : 0x07));
        session.version = DFU_VERSION;
        session.work &= at & 1 ? 7 : 0xffffffff;
        session.step &= 15;
        session.place &= 3;
        session.at = at & 2 ? session.at : 0x08000000 + (session.at & 0x7fff);
        answered += dfuse_next(&session, (const uint8_t *)f4, strlen(f4), image, 2, body, chance() % sizeof body, &action) == 0;
        answered += dfuse_take(&session, (const uint8_t *)f4, strlen(f4), image, 2, chance() % 9, bytes,
                               chance() % sizeof bytes) == 0;
    }
    is(answered > 0, "some records are a session's");
}

/* Reads random strings, and maps with one changed byte. */
static void try_strings(long count)
{
    struct dfuse_map map;
    struct dfuse_range range;
    long read = 0;
    for (long at = 0; at < count; at++) {
        uint8_t text[128];
        size_t length = at & 1 ? strlen(f4) : chance() % sizeof text;
        for (size_t i = 0; i < length; i++)
            text[i] = at & 1 ? (uint8_t)f4[i] : (uint8_t)chance();
        text[chance() % (length + 1)] = (uint8_t)chance();
        if (dfuse_read_map(text, length, &map) == 0) {
            read++;
            is(map.ranges >= 1 && map.ranges <= 32 && map.name < length, "a map that was read");
            is(dfuse_read_range(text, length, (uint32_t)map.ranges - 1, &range) == 0
                   && range.start + range.size * range.count <= 4294967296u, "a range that was read");
        }
    }
    is(read > 0, "some of them are maps");
}

int main(int count, char **words)
{
    long runs = count > 1 ? atol(words[1]) : 100000;
    try_maps();
    try_session();
    try_refusals();
    try_garbled(runs);
    try_strings(runs);
    printf("%d passed, %d failed\n", passed, failed);
    return failed != 0;
}
