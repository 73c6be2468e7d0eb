/* SPDX-License-Identifier: MIT OR Apache-2.0 */
/* The loop of a DfuSe download: carries out the host's actions, and reports their results to the host. */
#include "again.h"
#include "compare.h"
#include "session.h"
#include "standard.h"
#include "stop.h"

#include <string.h>

#define STATE_ERROR 10
#define STRING_AT 5 /* offset of iString in a status */
#define STATE_AT 4

static bool end(struct session *session, enum end end)
{
    session->end = end;
    return false;
}

bool dfuse_is_same(const struct session *session)
{
    const struct found *first = &session->first[1], *info = &session->wire.device->info;
    return info->is_upgrade && is_again(first, info) && strcmp(first->name, info->name) == 0
           && info->descriptor_size == session->begin_descriptor_size
           && memcmp(info->descriptor, session->begin_descriptor, sizeof info->descriptor) == 0;
}

/* Stores the string index by which a device in dfuERROR may explain the error. */
static void note_string(struct session *session, const uint8_t setup[8], const struct answer *answer)
{
    if (is_request(setup, KIND_IN, REQUEST_GETSTATUS) && answer->seen == DFU_SEEN_BYTES && answer->count == GETSTATUS_BYTES)
        session->dfuse.string = answer->bytes[STATE_AT] == STATE_ERROR ? answer->bytes[STRING_AT] : 0;
}

struct answer dfuse_send(struct session *session, const struct dfuse_action *given, const uint8_t *body, bool *is_reached)
{
    struct device *device = session->wire.device;
    struct dfu_action action = {.what = DFU_SEND, .length = given->length};
    struct answer answer = {DFU_SEEN_NOTHING, session->wire.bytes, 0, false, 0};
    memcpy(action.setup, given->setup, sizeof action.setup);
    if (device->handle == NULL)
        answer.is_gone = !device_reopen(device);
    *is_reached = !answer.is_gone && dfuse_is_same(session);
    if (!*is_reached)
        return answer;
    answer = answer_send(&session->wire, &action, body);
    note_string(session, action.setup, &answer);
    return answer;
}

struct answer dfuse_wait(struct session *session, uint32_t ms)
{
    progress_wait(&session->progress, ms);
    return answer_wait(&session->wire, dfuse_watch_wait(&session->dfuse.watch, ms));
}

uint32_t dfuse_course(struct session *session, const struct dfuse_action *action, const uint8_t *body, const struct answer *answer,
                      bool is_reached)
{
    const struct device *device = session->wire.device;
    struct dfuse *dfuse = &session->dfuse;
    struct dfu_facts facts = {
        .reached = is_reached,
        .gone = answer->is_gone,
        .many = device->is_many,
        .stopped = *device->is_stop != 0,
        .open = device->handle != NULL,
        .again = dfuse_is_same(session),
    };
    return dfuse_watch_after(&dfuse->watch, &dfuse->host, action, action->length > 0 ? body[0] : 0, answer->seen, &facts);
}

/* A device that is about to leave may disappear at any request. This is reported as leaving, and not as a restart. */
static struct answer perform(struct session *session, const struct dfuse_action *action, const uint8_t *body, bool *is_reached)
{
    struct answer answer;
    if (action->what == DFU_WAIT)
        return dfuse_wait(session, action->value);
    session->wire.is_manifesting = dfuse_watch_closes(&session->dfuse.host);
    answer = dfuse_send(session, action, body, is_reached);
    session->wire.is_manifesting = false;
    return answer;
}

/* Completes the progress of erasing or writing when the next part begins. The front of the image is written last, so it isn't counted as
 * sent until then. */
static void show_end(struct session *session)
{
    const struct dfuse *dfuse = &session->dfuse;
    uint64_t total = session->payload_length, front = dfuse->plan.front < total ? dfuse->plan.front : 0;
    if (dfuse->shown == DFUSE_ERASE && dfuse->host.work == DFUSE_WRITE)
        progress_at(&session->progress, PROGRESS_ERASING, total);
    else if (dfuse->shown == DFUSE_WRITE && dfuse->host.work == DFUSE_COMPARE)
        progress_at(&session->progress, PROGRESS_SENDING, dfuse->shown_to < front ? total : total - front);
}

/* Shows the progress by the address at which the host works. */
static void show(struct session *session)
{
    struct dfuse *dfuse = &session->dfuse;
    uint64_t done = dfuse_below(dfuse, dfuse->host.at);
    show_end(session);
    dfuse->shown = dfuse->host.work;
    dfuse->shown_to = done;
    if (dfuse->host.work == DFUSE_ERASE)
        progress_at(&session->progress, PROGRESS_ERASING, done);
    else if (dfuse->host.work == DFUSE_WRITE)
        progress_at(&session->progress, PROGRESS_SENDING, done);
    else if (dfuse->host.work == DFUSE_COMPARE)
        progress_at(&session->progress, PROGRESS_COMPARING, done);
    else if (dfuse->host.work == DFUSE_LEAVE || dfuse->host.work == DFUSE_OVER)
        progress_at(&session->progress, PROGRESS_COMPARING, session->payload_length);
}

static bool tell(struct session *session, const struct dfuse_action *action, const struct answer *answer)
{
    struct dfuse *dfuse = &session->dfuse;
    compare_memory(session, action, answer);
    session->taken++;
    session->restarted += answer->seen == DFU_SEEN_RESTART;
    if (dfuse_take(&dfuse->host, dfuse->map, dfuse->map_length, dfuse->image, (size_t)dfuse->elements, answer->seen, answer->bytes,
                   answer->count)
        != 0)
        return end(session, END_BROKEN);
    if (dfuse->host.report == 0 || dfuse->host.report == DFUSE_VERIFIED)
        show(session);
    return true;
}

/* A number that isn't in dfuse_watch.h is an internal error. */
bool dfuse_end(struct session *session, uint32_t course)
{
    switch (course) {
    case DFU_ENDS_GONE: return end(session, END_GONE);
    case DFU_ENDS_MANY: return end(session, END_MANY);
    case DFU_ENDS_SILENT: return end(session, END_SILENT);
    case DFU_ENDS_OTHER: return end(session, END_OTHER);
    default: return end(session, END_BROKEN);
    }
}

/* Carries out one action. Returns true if the session continues. */
static bool step(struct session *session, const struct dfuse_action *action, const uint8_t *body)
{
    bool is_reached = false;
    struct answer answer = perform(session, action, body, &is_reached);
    uint32_t course = dfuse_course(session, action, body, &answer, is_reached);
    if (course == DFU_GOES_TO_STOP)
        return true;
    if (course == DFU_GOES_RESTARTED)
        answer.seen = DFU_SEEN_RESTART;
    if ((course == DFU_GOES_ON || course == DFU_GOES_RESTARTED) && again_is_doubtful(session, answer.seen))
        return end(session, END_GONE);
    return course == DFU_GOES_ON || course == DFU_GOES_RESTARTED ? tell(session, action, &answer) : dfuse_end(session, course);
}

/* Ends the session after a stop. ABORT discards a command that was sent but not started. If all bytes were compared before, the session
 * still reports success. */
static void stop(struct session *session)
{
    static const struct dfuse_action abort_it = {.what = DFU_SEND, .setup = {KIND_OUT, REQUEST_ABORT}};
    static const uint8_t nothing[1];
    struct dfuse *dfuse = &session->dfuse;
    bool is_reached;
    if (dfuse->host.work == DFUSE_LEAVE) {
        dfuse->done = (struct dfuse_action){.what = DFU_DONE, .value = DFUSE_VERIFIED};
        dfuse->done.more = dfuse_watch_closes(&dfuse->host) ? DFUSE_UNKNOWN : DFUSE_STAYED;
        end(session, END_REPORT);
        return;
    }
    session->is_aborted = true;
    trace_abort(&session->wire.trace);
    if (session->wire.device->handle != NULL)
        dfuse_send(session, &abort_it, nothing, &is_reached);
    end(session, *session->wire.device->is_stop == STOP_TIME ? END_TIMED_OUT : END_ABORTED);
}

/* Prints the reason for the device's refusal from its string descriptor. */
static void say_string(struct session *session)
{
    char text[TEXT_ROOM];
    struct device *device = session->wire.device;
    if (session->dfuse.done.value != DFUSE_REFUSED || session->dfuse.string == 0 || device->handle == NULL)
        return;
    string_find(device->handle, session->dfuse.string, text);
    if (text[0] != '\0')
        say_text(stderr, "dfu-flash: the device says: ", text, "\n");
}

void dfuse_run(struct session *session)
{
    static uint8_t body[65536];
    struct dfuse *dfuse = &session->dfuse;
    struct dfuse_action action;
    do {
        memset(&action, 0, sizeof action);
        if (*session->wire.device->is_stop && dfuse->host.work != DFUSE_OVER) {
            stop(session);
            return;
        }
        if (dfuse_next(&dfuse->host, dfuse->map, dfuse->map_length, dfuse->image, (size_t)dfuse->elements, body, sizeof body, &action)
            != 0) {
            end(session, END_BROKEN);
            return;
        }
        if (action.what == DFU_DONE) {
            dfuse->done = action;
            end(session, END_REPORT);
            say_string(session);
            return;
        }
    } while (step(session, &action, body));
}
