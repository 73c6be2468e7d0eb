/* Checks the order of calls. As in the laws over lists, an operation that was requested is handed out, carried out once exactly as handed
 * out, and reported with its result, before any other call. Apart from that, each call must be the next stage of the plan. After a refusal
 * no more calls are expected. */
#include "monitor.h"

struct given given;
int32_t state_now, due_now;
unsigned asks, operation_bound, operations, most_operations;
struct dfu_ask handed;
static const struct stage *stage;
static struct stage one[2];
static int carries, is_plain, is_over, failed;
static int32_t ends;
/* Call that must be made before any other call, and the call that requested the operation. */
static enum call owed, asking;

/* For each call that requests an operation: the call that hands the operation out, and the one that receives its result. The calls of a
 * trial, of a run area and of two areas hand it out themselves. No call receives the result of a trial's operation: the next call of the
 * plan reads the flash back. */
static const struct {
    enum call next, took;
} loop[CALLS] = {[HANDLE] = {NEXT, TOOK},
                 [ELAPSE] = {NEXT, TOOK},
                 [TOOK] = {NEXT, TOOK},
                 [FORMAT_START] = {FORMAT_NEXT, FORMAT_TOOK},
                 [FORMAT_TOOK] = {FORMAT_NEXT, FORMAT_TOOK},
                 [TRIAL_START] = {OPERATION, NO_CALL},
                 [TRIAL_START_FROM] = {OPERATION, NO_CALL},
                 [TRIAL_CONFIRM] = {OPERATION, NO_CALL},
                 [TRIAL_END] = {OPERATION, NO_CALL},
                 [TRIAL_UPLOAD] = {OPERATION, NO_CALL},
                 [INSTALL_NEXT] = {OPERATION, INSTALL_TOOK},
                 [HOME_NEXT] = {OPERATION, HOME_TOOK}};

void over(int32_t number)
{
    is_over = 1;
    ends = number;
    owed = NO_CALL;
}

static int may_come(enum when when, int32_t n)
{
    switch (when) {
    case WELL: return n >= 0;
    case ZERO: return n == 0;
    case ONE: return n == 1;
    case IF_NO_MEDIUM: return n == DFU_NO_MEDIUM;
    case UNLESS_REFUSED: return n == 0 || n == DFU_NO_MEDIUM;
    default: return 0;
    }
}

/* Ends a stage after its operations: continues with the next stage, or ends the plan. */
static void go_on(int32_t n)
{
    const enum end end = stage->end;
    stage++;
    if (stage->call == NO_CALL || !may_come(stage->when, n))
        over(end == ALWAYS_NO_MEDIUM                          ? (int32_t)DFU_NO_MEDIUM
             : end == IF_HOME && n == 0                       ? (int32_t)DFU_NOT_HOME
             : (end == OR_SERVED || end == IF_HOME) && n == 1 ? 0
                                                              : n);
}

/* Returns 1 if the setup begins a download or an upload. */
static int begins(void)
{
    const uint8_t *s = given.setup;
    return state_now == DFU_STATE_IDLE && ((s[0] == 0x21 && s[1] == DFU_DNLOAD) || (s[0] == 0xa1 && s[1] == DFU_UPLOAD));
}

void follow(const struct stage *plan, int has_driver)
{
    stage = plan;
    carries = has_driver;
    is_plain = is_over = 0;
    asks = operations = 0;
    owed = NO_CALL;
    if (plan->when == TRANSFER_BEGINS && !begins())
        over(0);
    if (plan->when != TIME_IS_DUE)
        return;
    given.ms = (uint32_t)due_now;
    if (state_now != DFU_STATE_DNBUSY && state_now != DFU_STATE_MANIFEST)
        state_now < 0 ? over(state_now) : go_on(0);
    else if (due_now < 0)
        over(due_now);
}

void follow_one(enum call call)
{
    one[0].call = call;
    follow(one, 0);
    is_plain = 1;
    owed = call == OPERATION ? OPERATION : NO_CALL;
}

void follow_due(void)
{
    one[0].call = HANDLE;
    follow(one, 1);
    asking = HANDLE;
    owed = NEXT;
}

enum call stage_now(void)
{
    return stage->call;
}

/* Returns 1 for a call that changes nothing, and so may be made at any time, unless it is the next stage. */
static int is_question(enum call call)
{
    return (call == STATE || call == DUE) && (is_over || stage->call != call);
}

void comes(enum call call)
{
    note(call);
    if (is_question(call))
        return;
    if (owed == OPERATION && memory != NULL) {
        memory_is_changed();
        carried(0);
    }
    if (owed != NO_CALL)
        holds(call == owed, "another call than the one that is due");
    else
        holds(!is_over && call == stage->call, "a call that must not come now");
}

void hears(uint32_t number)
{
    holds(is_plain ? number == given.failed : (number != 0) == failed, "a call hears wrongly how the operation went");
}

void carried(int has_failed)
{
    operations++;
    failed = has_failed;
    owed = loop[asking].took;
    if (is_plain)
        over(has_failed);
    else if (owed == NO_CALL)
        holds((++stage)->when == CARRIED, "an operation where none is meant");
}

/* Notes that a call requested an operation. */
static void ask(enum call call)
{
    asks++;
    asking = call;
    owed = loop[call].next;
    if (!carries)
        over(DFU_WRITE_PENDING);
    else if (stage->end == OR_NOT_WRITTEN || (call == INSTALL_NEXT && operations == most_operations))
        over(DFU_NOT_WRITTEN);
}

int32_t answers(enum call call, int32_t n)
{
    note_number(n);
    if (is_question(call))
        return n;
    owed = NO_CALL;
    if (is_plain)
        over(n);
    else if (n == DFU_WRITE_PENDING)
        ask(call);
    else if (n == 0 && (call == NEXT || call == FORMAT_NEXT))
        owed = OPERATION;
    else if (call == NEXT || call == FORMAT_NEXT)
        over(n);
    else if (call == INSTALL_TOOK)
        owed = INSTALL_NEXT;
    else if (call == HOME_TOOK)
        owed = HOME_NEXT;
    else
        go_on(n);
    return n;
}

void returned(int32_t number)
{
    if (owed == OPERATION && memory != NULL)
        comes(NO_CALL);
    holds(owed == NO_CALL, "what was asked for is left out");
    holds(is_over, "a call is left out");
    holds(number == ends, "another number than the header says");
    path_ends();
}
