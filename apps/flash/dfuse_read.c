/* SPDX-License-Identifier: MIT OR Apache-2.0 */
/* Uploads by DfuSe from an address: brings the device to dfuIDLE, sets its address pointer, and requests blocks by their numbers. After any
 * unexpected answer these steps are repeated from the first missing byte, so that an old address pointer is never relied on. This file has
 * no proof, because the proved DfuSe host only writes images. */
#include "session.h"
#include "standard.h"
#include "stop.h"

#include <stdlib.h>
#include <string.h>

#define EARLY_MS 100  /* time to wait after a status that was requested too early */
#define FIRST_BLOCK 2 /* number of the block at the address pointer */
#define LAST_BLOCK 65535
#define SET_ADDRESS 0x21

/* Continuation of the upload after a request: the next request, a new start at the first missing byte, or the end. */
enum next { NEXT_ON, NEXT_ANEW, NEXT_OVER };

/* Ends the upload without a report. */
static enum next over(struct session *session, enum end end)
{
    session->end = end;
    return NEXT_OVER;
}

/* Ends the upload with a report. `value` is the number of the report in dfuse_host.h or dfuse.h. */
static enum next report(struct session *session, uint32_t value, uint32_t more)
{
    session->dfuse.done = (struct dfuse_action){.what = DFU_DONE, .value = value, .more = more};
    return over(session, END_REPORT);
}

/* Spends one of the allowed actions. Ends the upload if none is left or a stop was requested. */
static enum next spend(struct session *session)
{
    int stop = *session->wire.device->is_stop;
    if (stop)
        return over(session, stop == STOP_TIME ? END_TIMED_OUT : END_ABORTED);
    if (session->taken >= session->actions)
        return report(session, DFUSE_GAVE_UP, 0);
    session->taken++;
    return NEXT_ON;
}

/* Makes one request. If the device left and returned, the upload starts anew, because the device lost its address pointer. */
static enum next ask(struct session *session, uint8_t kind, uint8_t request, uint16_t value, const uint8_t *body, uint16_t length,
                     struct answer *answer)
{
    const struct dfuse_action action = {
        .what = DFU_SEND,
        .length = kind == KIND_OUT ? length : 0,
        .setup = {kind, request, (uint8_t)value, (uint8_t)(value >> 8), 0, 0, (uint8_t)length, (uint8_t)(length >> 8)},
    };
    enum next next = spend(session);
    bool is_reached;
    uint32_t course;
    if (next != NEXT_ON)
        return next;
    *answer = dfuse_send(session, &action, body, &is_reached);
    course = dfuse_course(session, &action, body, answer, is_reached);
    if (course == DFU_GOES_TO_STOP) /* the device is gone, and the user has stopped the session */
        return over(session, session->wire.device->is_many ? END_MANY : END_GONE);
    if (course != DFU_GOES_ON) {
        dfuse_end(session, course);
        return NEXT_OVER;
    }
    if (answer->seen != DFU_SEEN_RESTART)
        return NEXT_ON;
    session->restarted++;
    return session->restarted > session->restarts ? report(session, DFUSE_RESTARTS_SPENT, 0) : NEXT_ANEW;
}

static enum next plain(struct session *session, uint8_t request, struct answer *answer)
{
    static const uint8_t nothing[1];
    return ask(session, KIND_OUT, request, 0, nothing, 0, answer);
}

static enum next wait_for(struct session *session, uint32_t ms)
{
    enum next next = spend(session);
    if (next == NEXT_ON)
        dfuse_wait(session, ms);
    return next;
}

/* Requests the status, and stores its code, its state and its poll time. A stall counts as busy. Returns NEXT_ANEW if no valid status
 * arrived. */
static enum next status(struct session *session, uint32_t *code, uint32_t *state, uint32_t *poll_ms)
{
    static const uint8_t nothing[1];
    struct answer answer;
    enum next next = ask(session, KIND_IN, REQUEST_GETSTATUS, 0, nothing, GETSTATUS_BYTES, &answer);
    if (next != NEXT_ON)
        return next;
    *poll_ms = EARLY_MS;
    *state = STATE_BUSY;
    *code = CODE_OK;
    if (answer.seen == DFU_SEEN_STALL)
        return NEXT_ON;
    if (answer.seen != DFU_SEEN_BYTES || answer.count != GETSTATUS_BYTES)
        return NEXT_ANEW;
    *code = answer.bytes[0];
    *poll_ms = two_bytes(answer.bytes + 1) | (uint32_t)answer.bytes[3] << 16;
    *state = answer.bytes[GETSTATUS_STATE];
    return NEXT_ON;
}

/* Waits for an operation that an earlier session left running, or clears an error. A second errVENDOR means read protection. */
static enum next recover(struct session *session)
{
    struct answer answer;
    uint32_t code, state, poll_ms;
    enum next next = status(session, &code, &state, &poll_ms);
    if (next != NEXT_ON)
        return next;
    if (state < STATE_IDLE)
        return report(session, DFUSE_NOT_DFU, 0);
    session->dfuse.protections += state == STATE_ERROR && code == CODE_VENDOR;
    if (session->dfuse.protections > 1)
        return report(session, DFUSE_READ_PROTECTED, 0);
    return state == STATE_ERROR ? plain(session, REQUEST_CLRSTATUS, &answer) : wait_for(session, poll_ms);
}

/* Brings the device to dfuIDLE. ABORT discards a command that was sent but not started, which GETSTATUS would start. */
static enum next clear(struct session *session)
{
    static const uint8_t nothing[1];
    struct answer answer;
    enum next next;
    for (;;) {
        next = plain(session, REQUEST_ABORT, &answer);
        if (next == NEXT_ON && (answer.seen == DFU_SEEN_ACK || answer.seen == DFU_SEEN_STALL))
            next = ask(session, KIND_IN, REQUEST_GETSTATE, 0, nothing, GETSTATE_BYTES, &answer);
        if (next == NEXT_OVER)
            return next;
        if (next != NEXT_ON || answer.seen != DFU_SEEN_BYTES || answer.count != GETSTATE_BYTES)
            continue;
        if (answer.bytes[0] == STATE_IDLE)
            return NEXT_ON;
        if (answer.bytes[0] == STATE_ERROR || answer.bytes[0] == STATE_BUSY || answer.bytes[0] > STATE_ERROR
            || answer.bytes[0] < STATE_IDLE)
            next = recover(session);
        if (next == NEXT_OVER)
            return next;
    }
}

/* Polls the status until the device has executed the last command. Waits the device's poll time between two polls. */
static enum next poll(struct session *session)
{
    uint32_t code, state, poll_ms;
    for (;;) {
        enum next next = status(session, &code, &state, &poll_ms);
        if (next != NEXT_ON)
            return next;
        if (state == STATE_DNLOAD_IDLE && code == CODE_OK)
            return NEXT_ON;
        if (state == STATE_ERROR && code != CODE_STALLED && code != CODE_VENDOR)
            return report(session, DFUSE_REFUSED, code);
        if (state != STATE_SYNC && state != STATE_BUSY)
            return NEXT_ANEW;
        next = wait_for(session, poll_ms);
        if (next != NEXT_ON)
            return next;
    }
}

/* Sets the address pointer, and then brings the device to dfuIDLE, in which it accepts UPLOAD. */
static enum next point(struct session *session, uint32_t address)
{
    const uint8_t command[5] = {SET_ADDRESS, (uint8_t)address, (uint8_t)(address >> 8), (uint8_t)(address >> 16), (uint8_t)(address >> 24)};
    struct answer answer;
    enum next next = ask(session, KIND_OUT, REQUEST_DNLOAD, 0, command, sizeof command, &answer);
    if (next == NEXT_ON && answer.seen != DFU_SEEN_ACK)
        return NEXT_ANEW;
    if (next == NEXT_ON)
        next = poll(session);
    if (next == NEXT_ON)
        next = plain(session, REQUEST_ABORT, &answer);
    return next == NEXT_ON && answer.seen != DFU_SEEN_ACK ? NEXT_ANEW : next;
}

/* Requests the status after a stall. If the device reports errVENDOR, which means read protection, or any other error but errSTALLEDPKT,
 * the upload ends. Else it starts anew. No command is pending after the stall, so GETSTATUS starts none. */
static enum next explain(struct session *session)
{
    uint32_t code, state, poll_ms;
    enum next next = status(session, &code, &state, &poll_ms);
    if (next != NEXT_ON || state != STATE_ERROR || code == CODE_STALLED)
        return next == NEXT_ON ? NEXT_ANEW : next;
    return code == CODE_VENDOR ? report(session, DFUSE_READ_PROTECTED, 0) : report(session, DFUSE_REFUSED, code);
}

/* Uploads the blocks from the address pointer on. A block whose answer was lost is requested again, and a short block is discarded. */
static enum next fetch(struct session *session)
{
    static const uint8_t nothing[1];
    struct dfuse *dfuse = &session->dfuse;
    uint32_t transfer = dfuse->plan.transfer;
    struct answer answer;
    for (uint32_t block = FIRST_BLOCK; session->host.kept < dfuse->length && block <= LAST_BLOCK; block++) {
        uint64_t left = dfuse->length - session->host.kept;
        uint16_t count = (uint16_t)(left < transfer ? left : transfer);
        do {
            enum next next = ask(session, KIND_IN, REQUEST_UPLOAD, (uint16_t)block, nothing, count, &answer);
            if (next != NEXT_ON)
                return next;
        } while (answer.seen == DFU_SEEN_NOTHING);
        if (answer.seen == DFU_SEEN_STALL)
            return explain(session);
        if (answer.seen != DFU_SEEN_BYTES || answer.count != count)
            return NEXT_ANEW;
        memcpy(session->kept + session->host.kept, answer.bytes, count);
        session->host.kept += count;
        progress_at(&session->progress, PROGRESS_FETCHING, session->host.kept);
    }
    return NEXT_ON;
}

void dfuse_read(struct session *session)
{
    struct dfuse *dfuse = &session->dfuse;
    enum next next = NEXT_ON;
    session->kept = malloc(dfuse->length);
    if (session->kept == NULL) {
        report(session, DFUSE_NO_MEMORY, 0);
        return;
    }
    session->room = dfuse->length;
    while (next != NEXT_OVER && session->host.kept < dfuse->length) {
        next = clear(session);
        if (next == NEXT_ON)
            next = point(session, dfuse->address + (uint32_t)session->host.kept);
        if (next == NEXT_ON)
            next = fetch(session);
    }
    if (next != NEXT_OVER)
        report(session, DFUSE_UPLOADED, 0);
}
