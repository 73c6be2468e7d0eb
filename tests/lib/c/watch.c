/* Tests dfu_watch.h and dfuse_watch.h with rows worked out by hand: a device that stalls, does not answer, leaves, or returns as another
 * one. It also tries all facts with many records, and checks the record, how often another session begins, and that nothing else changes.
 */
#include <stdio.h>
#include <string.h>

#include "dfuse_watch.h"

static long passed, failed;
static const struct dfu_facts well = {.reached = 1, .open = 1, .upgrade = 1, .again = 1, .same = 1};
static const struct dfu_facts runtime = {.reached = 1, .open = 1, .again = 1};
static const struct dfu_action waits = {.what = DFU_WAIT}, resets = {.what = DFU_RESET};

static void is(const char *row, uint32_t got, uint32_t wanted)
{
    if (got == wanted) {
        passed++;
        return;
    }
    failed++;
    printf("watch: %s: %u, wanted %u\n", row, got, wanted);
}

static struct dfu_action request(uint8_t kind, uint8_t number)
{
    return (struct dfu_action){.what = DFU_SEND, .setup = {kind, number, 0, 0, 0, 0, 0, 0}};
}

/* Returns the facts with one of them changed to `answer`. */
static struct dfu_facts with(struct dfu_facts facts, uint8_t *fact, const struct dfu_facts *of, uint8_t answer)
{
    ((uint8_t *)&facts)[fact - (const uint8_t *)of] = answer;
    return facts;
}
#define WITH(facts, field, answer) with(facts, (uint8_t *)&(facts).field, &(facts), answer)

static void silence(void)
{
    struct dfu_action status = request(0xa1, 3);
    struct dfu_watch watch = {0};
    struct dfu_facts away = {.reached = 0};
    for (int turn = 1; turn < 24; turn++)
        is("silent, and not for long enough", dfu_watch_after(&watch, &status, DFU_SEEN_NOTHING, &well), DFU_GOES_ON);
    is("a wait is no answer", dfu_watch_after(&watch, &waits, DFU_SEEN_WAIT, &well), DFU_GOES_ON);
    is("23 in a row", watch.silent, 23);
    is("24 in a row", dfu_watch_after(&watch, &status, DFU_SEEN_NOTHING, &well), DFU_ENDS_SILENT);
    is("an answer ends the row", dfu_watch_after(&watch, &status, DFU_SEEN_BYTES, &well), DFU_GOES_ON);
    is("none in a row", watch.silent, 0);
    is("a reset counts too", dfu_watch_after(&watch, &resets, DFU_SEEN_NOTHING, &well), DFU_GOES_ON);
    is("one in a row", watch.silent, 1);
    is("and a request that did not go out", dfu_watch_after(&watch, &status, DFU_SEEN_NOTHING, &away), DFU_GOES_ON);
    is("two in a row", watch.silent, 2);
}

static void stalls(void)
{
    struct dfu_action status = request(0xa1, 3);
    struct dfu_watch watch = {0};
    is("no stall, no DETACH", dfu_watch_detaches(&watch), 0);
    for (uint32_t turn = 0; turn < 3; turn++) {
        is("a stall in run-time mode", dfu_watch_after(&watch, &status, DFU_SEEN_STALL, &runtime), DFU_GOES_ON);
        is("a reset after it", dfu_watch_before(&watch, &resets, 0), DFU_GOES_ON);
        is("a DETACH before the first", dfu_watch_detaches(&watch), turn == 0);
        is("the reset is made", dfu_watch_after(&watch, &resets, DFU_SEEN_RESET, &runtime), DFU_GOES_ON);
        is("and counted", watch.resets, turn + 1);
    }
    is("a fourth reset", dfu_watch_before(&watch, &resets, 0), DFU_ENDS_STALLED);
    is("but a request is made", dfu_watch_before(&watch, &status, 0), DFU_GOES_ON);
    is("one that is answered", dfu_watch_after(&watch, &status, DFU_SEEN_BYTES, &runtime), DFU_GOES_ON);
    is("ends the row", watch.resets + watch.stalled, 0);
    is("a stall in DFU mode is none of these", dfu_watch_after(&watch, &status, DFU_SEEN_STALL, &well), DFU_GOES_ON);
    is("and is not kept", watch.stalled, 0);
}

static void images(void)
{
    static const uint8_t kinds[] = {0x21, 0xa1};
    struct dfu_watch watch = {0};
    for (int kind = 0; kind < 2; kind++)
        for (uint8_t number = 0; number < 8; number++) {
            struct dfu_action action = request(kinds[kind], number);
            int is_image = (kind == 0 && number == 1) || (kind == 1 && number == 2);
            is("by another descriptor", dfu_watch_before(&watch, &action, 1), is_image ? DFU_ENDS_REFUSED : DFU_GOES_ON);
            is("by its own", dfu_watch_before(&watch, &action, 0), DFU_GOES_ON);
            dfu_watch_after(&watch, &action, DFU_SEEN_NOTHING, &well);
            is("a block was sent", watch.sent, kind == 0 && number == 1);
            watch = (struct dfu_watch){0};
        }
}

static void others(void)
{
    struct dfu_action block = request(0x21, 1), status = request(0xa1, 3);
    struct dfu_watch watch = {0}, sent = {.sent = 1};
    struct dfu_facts gone = {.gone = 1}, many = {.gone = 1, .many = 1}, stopped = {.gone = 1, .stopped = 1};
    struct dfu_facts other = WITH(well, again, 0), changed = WITH(well, same, 0), later = WITH(runtime, again, 0);
    is("gone", dfu_watch_after(&watch, &status, DFU_SEEN_NOTHING, &gone), DFU_ENDS_GONE);
    is("several settings", dfu_watch_after(&watch, &status, DFU_SEEN_NOTHING, &many), DFU_ENDS_MANY);
    is("gone, and stopped", dfu_watch_after(&watch, &status, DFU_SEEN_NOTHING, &stopped), DFU_GOES_ON);
    is("another one", dfu_watch_after(&watch, &status, DFU_SEEN_BYTES, &other), DFU_ENDS_OTHER);
    is("another one in run-time mode", dfu_watch_is_other(&watch, &later), 1);
    is("that once a block was sent", dfu_watch_is_other(&sent, &later), 0);
    is("which counts in DFU mode", dfu_watch_is_other(&sent, &other), 1);
    is("another descriptor", dfu_watch_after(&watch, &status, DFU_SEEN_BYTES, &changed), DFU_BEGINS_ANEW);
    is("a second time", dfu_watch_after(&watch, &status, DFU_SEEN_BYTES, &changed), DFU_ENDS_OTHER);
    watch = (struct dfu_watch){0};
    is("with the first block", dfu_watch_after(&watch, &block, DFU_SEEN_ACK, &changed), DFU_ENDS_OTHER);
    is("in run-time mode any descriptor", dfu_watch_after(&watch, &status, DFU_SEEN_BYTES, &runtime), DFU_GOES_ON);
}

static struct dfuse_action command_of(uint8_t kind, uint8_t number, uint8_t value, uint64_t length)
{
    return (struct dfuse_action){.what = DFU_SEND, .length = length, .setup = {kind, number, value, 0, 0, 0, 0, 0}};
}

static void dfuse(void)
{
    static const struct dfuse_session writes = {.work = DFUSE_WRITE, .step = 14}, asks = {.work = DFUSE_LEAVE, .step = 11},
                                      leaves = {.work = DFUSE_LEAVE, .step = 12};
    struct dfuse_action status = command_of(0xa1, 3, 0, 0), erase = command_of(0x21, 1, 0, 5), block = command_of(0x21, 1, 2, 64);
    struct dfuse_action end = command_of(0x21, 1, 0, 0);
    struct dfuse_watch watch = {0};
    struct dfu_facts gone = {.gone = 1}, many = {.gone = 1, .many = 1}, stopped = {.gone = 1, .stopped = 1};
    struct dfu_facts other = WITH(well, again, 0);
    is("a device that writes isn't asked to leave", dfuse_watch_closes(&writes), 0);
    is("nor one that is to be", dfuse_watch_closes(&asks), 0);
    is("one that is", dfuse_watch_closes(&leaves), 1);
    for (int turn = 1; turn <= 5; turn++)
        is("waits of 0 ms", dfuse_watch_wait(&watch, 0), turn > 3 ? 5 : 0);
    is("GETSTATUS is between them", dfuse_watch_after(&watch, &writes, &status, 0, DFU_SEEN_BYTES, &well), DFU_GOES_ON);
    is("still a little longer", dfuse_watch_wait(&watch, 0), 5);
    is("the pointer is set", dfuse_watch_after(&watch, &writes, &erase, 0x21, DFU_SEEN_ACK, &well), DFU_GOES_ON);
    is("which changes nothing", watch.sent, 0);
    is("a new command is asked at once", dfuse_watch_wait(&watch, 0), 0);
    is("a wait of its own", dfuse_watch_wait(&watch, 70), 70);
    is("the end changes nothing", dfuse_watch_after(&watch, &writes, &end, 0, DFU_SEEN_ACK, &well) + watch.sent, 0);
    is("an erase does", dfuse_watch_after(&watch, &writes, &erase, 0x41, DFU_SEEN_NOTHING, &well) + watch.sent, 1);
    watch.sent = 0;
    is("and a block", dfuse_watch_after(&watch, &writes, &block, 0, DFU_SEEN_ACK, &well) + watch.sent, 1);
    is("gone", dfuse_watch_after(&watch, &writes, &status, 0, DFU_SEEN_NOTHING, &gone), DFU_ENDS_GONE);
    is("several settings", dfuse_watch_after(&watch, &writes, &status, 0, DFU_SEEN_NOTHING, &many), DFU_ENDS_MANY);
    is("gone, and stopped", dfuse_watch_after(&watch, &writes, &status, 0, DFU_SEEN_NOTHING, &stopped), DFU_GOES_TO_STOP);
    is("another one", dfuse_watch_after(&watch, &writes, &status, 0, DFU_SEEN_BYTES, &other), DFU_ENDS_OTHER);
    is("gone, asked to leave", dfuse_watch_after(&watch, &leaves, &status, 0, DFU_SEEN_NOTHING, &gone), DFU_GOES_RESTARTED);
    is("another one then", dfuse_watch_after(&watch, &leaves, &status, 0, DFU_SEEN_BYTES, &other), DFU_GOES_RESTARTED);
    is("left then", dfuse_watch_after(&watch, &leaves, &status, 0, DFU_SEEN_LEFT, &well), DFU_GOES_RESTARTED);
    is("but not with a wait", dfuse_watch_after(&watch, &leaves, &(struct dfuse_action){.what = DFU_WAIT}, 0, DFU_SEEN_WAIT, &other), 0);
    watch = (struct dfuse_watch){0};
    for (int turn = 1; turn <= 3; turn++)
        is("silent then", dfuse_watch_after(&watch, &leaves, &status, 0, DFU_SEEN_NOTHING, &well), turn == 3 ? DFU_GOES_RESTARTED : 0);
    for (int turn = 4; turn <= 24; turn++)
        is("silent", dfuse_watch_after(&watch, &writes, &status, 0, DFU_SEEN_NOTHING, &well), turn == 24 ? DFU_ENDS_SILENT : 0);
}

/* Tries records with 21 to 25 silent requests and up to 3 resets, with each combination of facts and each outcome. */
static void everything(void)
{
    struct dfu_action actions[] = {request(0x21, 1), request(0xa1, 2), request(0xa1, 3), waits, resets};
    for (uint32_t all = 0; all < 5 * 4 * 8 * 9 * 256; all++) {
        struct dfu_watch before = {.silent = 21 + all % 5, .resets = all / 5 % 4, .stalled = all / 20 & 1, .sent = all / 40 & 1,
                                   .anew = all / 80 & 1};
        struct dfu_facts facts;
        for (int bit = 0; bit < 8; bit++)
            ((uint8_t *)&facts)[bit] = (uint8_t)(all / 160 % 256 >> bit & 1);
        for (uint32_t at = 0; at < 5; at++) {
            struct dfu_watch watch = before;
            uint32_t course = dfu_watch_after(&watch, &actions[at], all / 160 / 256, &facts);
            int is_right = course <= DFU_ENDS_OTHER && watch.stalled <= 1 && watch.sent <= 1 && watch.sent >= before.sent
                           && watch.anew == (before.anew || course == DFU_BEGINS_ANEW) && (course > 1 || watch.silent < 24)
                           && (course != DFU_BEGINS_ANEW || (!before.anew && !watch.sent));
            passed += is_right;
            failed += !is_right;
        }
    }
}

int main(void)
{
    silence();
    stalls();
    images();
    others();
    dfuse();
    everything();
    printf("watch: %ld passed, %ld failed\n", passed, failed);
    return failed != 0;
}
