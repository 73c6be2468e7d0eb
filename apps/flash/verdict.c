/* SPDX-License-Identifier: MIT OR Apache-2.0 */
/* Finds the verdict on a session: the report's name, the exit status, and the meaning as text. */
#include "messages.h"
#include "session.h"
#include "status.h"

#include <stdio.h>
#include <string.h>

/* tests/lib/page/texts.py parses these tables. */
/* clang-format off */
/* Meanings by the number of the report, from 1 on. */
static const struct meaning reports[] = {
    [DFU_INSTALLED] = {STATUS_DONE, "the device took the whole image, reported that it is in place, and was reset", NULL},
    [DFU_UNCONFIRMED] = {STATUS_UNCONFIRMED, "the device took the whole image and was reset; it can't tell whether it is in place", NULL},
    [DFU_ABORTED] = {STATUS_ABORTED, "given up by Ctrl-C or a signal", "the device"},
    [DFU_GAVE_UP] = {STATUS_GIVEN_UP, "the limit of actions is spent", "the device"},
    [DFU_REFUSED] = {STATUS_DEVICE, "the device refused it", "it"},
    [DFU_RESTARTS_SPENT] = {STATUS_GIVEN_UP, "the device restarted too often", "it"},
    [DFU_UPLOADED] = {STATUS_DONE, "the device gave the image that it has", NULL},
    [DFU_TOO_MANY_BLOCKS] = {STATUS_GIVEN_UP, "the image has 65535 full blocks or more: too many for an upload, or to compare it", NULL},
    [DFU_NO_MEMORY] = {STATUS_GIVEN_UP, "there was no memory for the image", NULL},
    [DFU_VERIFIED] = {STATUS_DONE, "after a reset the device gave the image back, and it is the file's", NULL},
    [DFU_DIFFERENT] = {STATUS_DIFFERENT, "after a reset the device gave back another image than the file's", NULL},
};

/* Names and meanings by `enum end`, for a session without a report. */
static const struct {
    const char *name;
    struct meaning meaning;
} ends[] = {
    [END_GONE] = {"gone", {STATUS_GONE, "the device left and did not come back", "it"}},
    [END_SILENT] = {"silent", {STATUS_GONE, "the device answers no more", "it"}},
    [END_MANY] = {"many", {STATUS_SEVERAL, "the device came back with more than one setting: choose by --interface or --alt", NULL}},
    [END_OTHER] = {"other", {STATUS_OTHER, "another device came back", "the one of before"}},
    [END_ABORTED] = {"aborted", {STATUS_ABORTED, "given up by Ctrl-C or a signal", "the device"}},
    [END_TIMED_OUT] = {"timed-out", {STATUS_GIVEN_UP, "the time is spent", "the device"}},
    [END_BROKEN] = {"broken", {STATUS_BROKEN, "the host refused its own record, which is a mistake of this program", NULL}},
    [END_STALLED] = {"stalled",
        {STATUS_STALLED, "in run-time mode it stalls GETSTATUS: bring it to DFU mode by hand, as by its button, and run this again", NULL}},
    [END_UNRESET] = {"not-reset", {STATUS_UNRESET, "a reset is missing, which this system does not make", "the device"}},
};

/* Meanings of ends without a report if the device took the whole image and only the comparison or the reset is missing. */
static const struct meaning uncompared[] = {
    [END_UNRESET] = {STATUS_UNRESET,
        "the device took the whole image; a reset is missing, which this system does not make: pull its plug, and put it in again", NULL},
    [END_GONE] = {STATUS_GONE,
        "the device took the whole image, left, and did not come back to be compared; see --no-verify and --wait", NULL},
    [END_STALLED] = {STATUS_STALLED,
        "the device took the whole image, and stalls GETSTATUS in run-time mode: it was not compared; see --no-verify", NULL},
};

/* Meaning of END_UNRESET if the device returned the whole image. */
static const struct meaning fetched = {STATUS_UNRESET,
    "the device gave the image that it has; to leave DFU mode it needs its plug pulled", NULL};
/* clang-format on */

/* If meaning->device isn't NULL, the text states if a block was sent, in this session or an earlier one of --retry, and then which image
 * the device may have. */
void verdict_words(struct verdict *verdict, const struct session *session, const struct meaning *meaning)
{
    bool has_sent = session->had_sent || (session->dfuse.is_active ? session->dfuse.watch.sent : session->watch.sent) != 0;
    verdict->status = meaning->status;
    if (meaning->device == NULL)
        snprintf(verdict->words, sizeof verdict->words, "%s", meaning->words);
    else if (has_sent)
        snprintf(verdict->words, sizeof verdict->words, "%s; %s may have the old image, the new one or neither", meaning->words,
                 meaning->device);
    else
        snprintf(verdict->words, sizeof verdict->words, "%s; no block was sent", meaning->words);
}

/* An unknown number, or an end without a verdict, is an internal error. */
static enum end known(enum end end)
{
    size_t at = (size_t)end;
    return at < sizeof ends / sizeof *ends && ends[at].name != NULL ? end : END_BROKEN;
}

static void take_end(struct verdict *verdict, const struct session *session)
{
    enum end end = known(session->end);
    bool is_uncompared = session->goal == GOAL_VERIFIED && session->is_whole && (end == END_GONE || end == END_STALLED);
    bool is_fetched = session->goal == GOAL_UPLOAD && session->is_fetched && end == END_UNRESET;
    is_uncompared = is_uncompared || (session->goal != GOAL_UPLOAD && session->is_whole && end == END_UNRESET);
    snprintf(verdict->name, sizeof verdict->name, "%s", ends[end].name);
    verdict_words(verdict, session, is_fetched ? &fetched : is_uncompared ? &uncompared[end] : &ends[end].meaning);
}

/* Finds the verdict on a DFU 1.1 session by the number of its report. Returns false if dfu_host.h has no report of this number. */
static bool take_report(struct verdict *verdict, const struct session *session)
{
    uint32_t report = session->done.value;
    int32_t length;
    if (report >= sizeof reports / sizeof *reports || reports[report].words == NULL)
        return false;
    length = dfu_host_name(report, (uint8_t *)verdict->name, sizeof verdict->name - 1);
    verdict->name[length > 0 ? length : 0] = '\0';
    verdict_words(verdict, session, &reports[report]);
    verdict->code = report == DFU_REFUSED ? (uint8_t)session->done.code : 0;
    return true;
}

struct verdict verdict_of(const struct session *session)
{
    struct verdict verdict;
    memset(&verdict, 0, sizeof verdict);
    if (session->end == END_REPORT && (session->dfuse.is_active ? dfuse_verdict(session, &verdict) : take_report(&verdict, session)))
        return verdict;
    take_end(&verdict, session);
    return verdict;
}

struct verdict verdict_broken(void)
{
    struct verdict verdict = {.status = ends[END_BROKEN].meaning.status};
    snprintf(verdict.name, sizeof verdict.name, "%s", ends[END_BROKEN].name);
    snprintf(verdict.words, sizeof verdict.words, "%s", ends[END_BROKEN].meaning.words);
    return verdict;
}
