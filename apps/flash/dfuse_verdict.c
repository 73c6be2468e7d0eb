/* SPDX-License-Identifier: MIT OR Apache-2.0 */
/* Finds the verdict on a DfuSe session that has a report. */
#include "session.h"
#include "status.h"

#include <stdio.h>
#include <string.h>

/* Verdicts by the number of the report. tests/lib/page/texts.py parses this table. */
/* clang-format off */
static const struct {
    uint32_t report;
    const char *name;
    struct meaning meaning;
} reports[] = {
    {DFUSE_VERIFIED, "verified", {STATUS_DONE, "each byte was read back from the device's memory, and is the file's", NULL}},
    {DFUSE_DIFFERENT, "different", {STATUS_DIFFERENT, "a byte that was read back from the device's memory isn't the file's", NULL}},
    {DFUSE_REFUSED, "refused", {STATUS_DEVICE, "the device refused a command", "the device"}},
    {DFUSE_READ_PROTECTED, "read-protected", {STATUS_DEVICE, "the device's memory is protected", "the device"}},
    {DFUSE_GAVE_UP, "gave-up", {STATUS_GIVEN_UP, "the limit of actions is spent", "the device"}},
    {DFUSE_RESTARTS_SPENT, "restarts-spent", {STATUS_GIVEN_UP, "the device restarted too often", "the device"}},
    {DFUSE_NOT_DFU, "not-dfu", {STATUS_GONE, "the device is in its application", "the device"}},
    {DFUSE_UPLOADED, "uploaded", {STATUS_DONE, "the device gave the bytes of its memory that were asked for", NULL}},
    {DFUSE_NO_MEMORY, "no-memory", {STATUS_GIVEN_UP, "there was no memory for the image", NULL}},
};
/* clang-format on */

/* Texts about how the device left, which follow the text for Verified. */
static const char *const leavings[] = {
    [DFUSE_STAYED] = "; the device stays in DFU mode",
    [DFUSE_LEFT] = "; the device starts its application",
    [DFUSE_UNKNOWN] = "; whether it starts its application isn't known",
};

#define COUNT(table) (sizeof(table) / sizeof *(table))

bool dfuse_verdict(const struct session *session, struct verdict *verdict)
{
    const struct dfuse_action *done = &session->dfuse.done;
    size_t at = 0, length;
    while (at < COUNT(reports) && reports[at].report != done->value)
        at++;
    if (at == COUNT(reports) || (done->value == DFUSE_VERIFIED && done->more >= COUNT(leavings)))
        return false;
    snprintf(verdict->name, sizeof verdict->name, "%s", reports[at].name);
    verdict_words(verdict, session, &reports[at].meaning);
    verdict->code = done->value == DFUSE_REFUSED ? (uint8_t)done->more : 0;
    length = strlen(verdict->words);
    if (done->value == DFUSE_VERIFIED)
        snprintf(verdict->words + length, sizeof verdict->words - length, "%s", leavings[done->more]);
    return true;
}
