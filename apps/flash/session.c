/* SPDX-License-Identifier: MIT OR Apache-2.0 */
/* The loop of a session: carries out the host's actions, and reports their results to the host. Only the DETACH of stalls.c is sent in
 * addition. */
#include "again.h"
#include "compare.h"
#include "facts.h"
#include "session.h"
#include "stalls.h"
#include "standard.h"
#include "stop.h"

#include <stdlib.h>
#include <string.h>

#define SETTLE_MS 2000 /* time in which a device that left at the last reset may return, so that the next run finds it */

static void grow(struct session *session)
{
    size_t wanted = (size_t)session->host.kept + sizeof session->wire.bytes;
    uint8_t *more;
    if (session->goal != GOAL_UPLOAD || wanted <= session->room)
        return;
    /* If there is no memory, the host keeps the buffer that it has, and reports NoMemory when a block doesn't fit. */
    more = realloc(session->room == 0 ? NULL : session->kept, 2 * wanted);
    if (more == NULL)
        return;
    session->kept = more;
    session->room = 2 * wanted;
}

static bool is_download(const struct dfu_action *action)
{
    return action->what == DFU_SEND && is_request(action->setup, KIND_OUT, REQUEST_DNLOAD);
}

static bool is_upload(const struct dfu_action *action)
{
    return action->what == DFU_SEND && is_request(action->setup, KIND_IN, REQUEST_UPLOAD);
}

/* Shows the progress by the number of bytes that were sent or received. */
static void show(struct session *session, const struct dfu_action *action, const struct answer *answer)
{
    uint64_t number = setup_value(action->setup), length = setup_length(action->setup);
    if (answer->seen == DFU_SEEN_ACK && is_download(action) && action->length > 0)
        progress_at(&session->progress, PROGRESS_SENDING, action->from + action->length);
    if (answer->seen == DFU_SEEN_BYTES && is_upload(action))
        progress_at(&session->progress, session->goal == GOAL_UPLOAD ? PROGRESS_FETCHING : PROGRESS_COMPARING,
                    number * length + answer->count);
}

/* If the device left, finds it again before the next request. Returns false, so that nothing is sent, if the session was aborted, the
 * device stays away, or another device is at its path. */
static bool is_ready(struct session *session, bool *is_gone)
{
    struct device *device = session->wire.device;
    struct dfu_facts facts;
    if (device->handle != NULL)
        return true;
    /* An aborted session doesn't wait for a device that is away. */
    if (session->is_aborted)
        return false;
    *is_gone = !device_reopen(device);
    facts = facts_of(session, false, *is_gone);
    return !*is_gone && !dfu_watch_is_other(&session->watch, &facts);
}

static struct answer send_request(struct session *session, const struct dfu_action *action, bool *is_reached)
{
    struct answer answer = {DFU_SEEN_NOTHING, session->wire.bytes, 0, false, 0};
    *is_reached = is_ready(session, &answer.is_gone);
    if (!*is_reached)
        return answer;
    answer = answer_send(&session->wire, action, session->file + action->from);
    if (is_download(action))
        session->is_whole = action->length == 0 && answer.seen == DFU_SEEN_ACK;
    if (is_upload(action))
        compare_blocks(session, action, &answer);
    if (is_upload(action))
        session->is_fetched = answer.seen == DFU_SEEN_BYTES && answer.count < setup_length(action->setup);
    show(session, action, &answer);
    return answer;
}

static struct answer perform(struct session *session, const struct dfu_action *action, bool *is_reached)
{
    if (action->what == DFU_WAIT) {
        progress_wait(&session->progress, action->value);
        return answer_wait(&session->wire, action->value);
    }
    if (action->what == DFU_RESET)
        return stalls_reset(&session->watch, &session->wire);
    return send_request(session, action, is_reached);
}

static bool end(struct session *session, enum end end)
{
    session->end = end;
    return false;
}

static bool tell(struct session *session, const struct answer *answer)
{
    grow(session);
    session->taken++;
    session->restarted += answer->seen == DFU_SEEN_RESTART;
    if (dfu_host_take(&session->host, session->file, session->payload_length, session->kept, session->room, answer->seen, answer->bytes,
                      answer->count)
        != 0)
        return end(session, END_BROKEN);
    return true;
}

/* Traces the descriptor and the identifiers that the host uses. In run-time mode the descriptor may be a substitute. */
static void trace_session(const struct session *session)
{
    struct found info = session->wire.device->info;
    info.vendor = session->ids.vendor;
    info.product = session->ids.product;
    info.release = session->ids.device;
    if (session->runtime_refusal != 0) {
        memcpy(info.descriptor, session->substitute, sizeof info.descriptor);
        info.descriptor_size = sizeof info.descriptor;
    }
    if (session->refusal == 0)
        trace_begin(&session->wire.trace, goal_name(session->goal), &info, session->host.transfer,
                    session->dfuse.is_active ? session->actions : session->host.actions,
                    session->dfuse.is_active ? session->restarts : session->host.restarts);
}

/* A device may have another functional descriptor in DFU mode than in run-time mode. The session that brought it to DFU mode has sent no
 * block, so that session is dropped, and a new one begins. */
static bool begin_anew(struct session *session)
{
    session->refusal = session_begin(session);
    trace_session(session);
    return session->refusal == 0 || end(session, END_REFUSED);
}

/* Returns the end for a course of dfu_watch.h. An unknown number is an internal error. */
static enum end end_of(uint32_t course)
{
    switch (course) {
    case DFU_ENDS_GONE: return END_GONE;
    case DFU_ENDS_MANY: return END_MANY;
    case DFU_ENDS_SILENT: return END_SILENT;
    case DFU_ENDS_OTHER: return END_OTHER;
    case DFU_ENDS_STALLED: return END_STALLED;
    case DFU_ENDS_REFUSED: return END_REFUSED;
    default: return END_BROKEN;
    }
}

/* Follows the course that dfu_watch.h chose. Returns true if the session continues. */
static bool follow(struct session *session, uint32_t course, const struct answer *answer)
{
    if (course == DFU_GOES_ON)
        return tell(session, answer);
    return course == DFU_BEGINS_ANEW ? begin_anew(session) : end(session, end_of(course));
}

/* Returns true for a reset or a DETACH, after which the device leaves as requested. */
static bool is_asked(const struct dfu_action *action)
{
    return action->what == DFU_RESET || is_request(action->setup, KIND_OUT, REQUEST_DETACH);
}

/* Carries out one action. Returns true if the session continues. */
static bool step(struct session *session, const struct dfu_action *action)
{
    uint32_t course = dfu_watch_before(&session->watch, action, session->runtime_refusal != 0);
    bool is_reached = false;
    struct dfu_facts facts;
    struct answer answer;
    if (course != DFU_GOES_ON) {
        session->refusal = session->runtime_refusal;
        return follow(session, course, NULL);
    }
    answer = perform(session, action, &is_reached);
    if (session->wire.is_unreset)
        return end(session, END_UNRESET);
    facts = facts_of(session, is_reached, answer.is_gone);
    course = dfu_watch_after(&session->watch, action, answer.seen, &facts);
    if (facts.open)
        facts_note(session);
    if (answer.is_gone)
        answer.seen = DFU_SEEN_NOTHING;
    if (course == DFU_GOES_ON && !is_asked(action) && again_is_doubtful(session, answer.seen))
        return end(session, END_GONE);
    return follow(session, course, &answer);
}

/* On the first stop, aborts the host's session. Returns 0, or the error of the host's library. */
static int32_t stop(struct session *session)
{
    if (!*session->wire.device->is_stop || session->is_aborted)
        return 0;
    session->is_aborted = true;
    trace_abort(&session->wire.trace);
    return dfu_host_abort(&session->host, session->file, session->payload_length);
}

/* Returns true if the host gave up because of --timeout and not because of a signal. */
static bool is_timed_out(const struct session *session)
{
    return session->done.value == DFU_ABORTED && *session->wire.device->is_stop == STOP_TIME;
}

/* The last reset brings a device out of DFU mode. The device need not return, for example if its application has no USB. */
static void settle(struct session *session)
{
    if (session->wire.device->handle == NULL)
        device_await(session->wire.device, SETTLE_MS);
}

void session_run(struct session *session)
{
    struct dfu_action action;
    trace_session(session);
    if (session->dfuse.is_active) {
        (session->is_upload ? dfuse_read : dfuse_run)(session);
        return;
    }
    do {
        memset(&action, 0, sizeof action);
        if (stop(session) != 0 || dfu_host_next(&session->host, session->file, session->payload_length, &action) != 0) {
            end(session, END_BROKEN);
            return;
        }
        if (action.what == DFU_DONE) {
            session->done = action;
            end(session, is_timed_out(session) ? END_TIMED_OUT : END_REPORT);
            settle(session);
            return;
        }
    } while (step(session, &action));
}
