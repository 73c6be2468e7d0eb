/* Common parts of the test that tries each path of the inline calls of include/: the tape of choices, the arguments of a program, and the
 * monitor of the order of calls. */
#ifndef MONITOR_H
#define MONITOR_H
#include <stddef.h>
#include <stdint.h>

#include "dfu_home_core.h"
#include "dfu_install_core.h"
#include "dfu_trial_core.h"

/* The proved calls, and an operation of the driver. The names in tape.c have the same order. */
enum call {
    NO_CALL,
    POWER_ON,
    BEGIN,
    HANDLE,
    ELAPSE,
    USB_RESET,
    NEXT,
    TOOK,
    WOULD_STALL,
    CLOSES,
    TOO_LONG,
    REFUSE_CLOSE,
    REFUSE,
    CANDIDATE,
    DUE,
    STATE,
    CODE,
    IMAGE,
    IS_BLANK,
    FUNCTIONAL,
    FORMAT_START,
    FORMAT_NEXT,
    FORMAT_TOOK,
    TRIAL_LOOK,
    TRIAL_START,
    TRIAL_START_FROM,
    TRIAL_RUNS,
    TRIAL_CONFIRM,
    TRIAL_END,
    TRIAL_UPLOAD,
    INSTALL_NEXT,
    INSTALL_TOOK,
    HOME_NEXT,
    HOME_TOOK,
    HOME_MAY_DOWNLOAD,
    OPERATION,
    CALLS
};

/* Condition for a stage: the result of the previous stage after its operations. The last two are for the first stage of a plan. */
enum when {
    ALWAYS,
    WELL, /* the result is 0 or more */
    ZERO,
    ONE,
    IF_NO_MEDIUM,
    UNLESS_REFUSED, /* the result is 0 or DFU_NO_MEDIUM */
    CARRIED,        /* the call requested an operation, which was carried out or failed */
    TIME_IS_DUE,    /* the state is dfuDNBUSY or dfuMANIFEST */
    TRANSFER_BEGINS /* the setup is a DNLOAD or an UPLOAD, and the state dfuIDLE */
};

/* Result of the inline call if its plan ends with a stage: the stage's result, or an exception. */
enum end {
    AS_ANSWERED,
    OR_NOT_WRITTEN,  /* DFU_NOT_WRITTEN instead of DFU_WRITE_PENDING; no operation is carried out after that */
    OR_SERVED,       /* 0 instead of 1: the request is served, and its handling stalls it */
    IF_HOME,         /* 0 instead of 1: the request may be served; DFU_NOT_HOME instead of 0 */
    ALWAYS_NO_MEDIUM /* DFU_NO_MEDIUM for each result */
};

/* The plan of an inline call is a list of stages that ends with NO_CALL, or earlier at the first stage whose condition is false. */
struct stage {
    enum call call;
    enum when when;
    enum end end;
};

/* Arguments of the program, with which each proved call must be made. */
struct given {
    const struct dfu_config *config;
    const struct dfu_record *record; /* NULL: expect any record in the path's first call, and the same in all others */
    const uint8_t *flash, *block, *setup, *body, *image;
    size_t size, most, length, room;
    uint8_t *out;
    uint32_t ms, failed, at, status;
    struct dfu_tries tries;
    const struct dfu_run_area *area;
    const struct dfu_home_record *home; /* NULL: expect any record in the path's first call, which begins a copy */
    uint32_t home_count;
    const struct dfu_driver *driver;
    struct dfu_place run, otherwise;
    const struct dfu_standing *standing;
};
extern struct given given;

/* tape.c: all paths of an inline call. A check that fails ends the program with status 1, and prints the path so far. */
extern unsigned long paths, checks;
void holds(int truth, const char *what);
void note(enum call call);
void note_number(int32_t number);
/* Returns a choice of the path, 0 to n - 1; each is tried in turn. */
unsigned pick(unsigned n);
/* Begins the next path of the inline call with this name. Returns 0 if there is none. */
int next_path(const char *name);
/* Ends a path after the inline call has returned, and checks that it made the same choices as before. */
void path_ends(void);

/* monitor.c: the order of calls. */
extern int32_t state_now, due_now;
extern unsigned asks, operation_bound, operations, most_operations;
extern struct dfu_ask handed;
/* follow begins a path with this plan, where `carries` is 1 if a driver carries out operations; follow_one begins a path with a single
 * call. */
void follow(const struct stage *plan, int carries);
void follow_one(enum call call);
/* Begins a path with pending operations of the device. */
void follow_due(void);
/* Ends the expected calls; the inline call must return this number. */
void over(int32_t number);
/* Returns the current stage, for which operations are carried out. */
enum call stage_now(void);
/* comes checks a call of a stand-in; answers notes its result. */
void comes(enum call call);
int32_t answers(enum call call, int32_t number);
/* carried notes that the operation that was handed out was carried out, or failed; hears checks the result that a call reports. */
void carried(int has_failed);
void hears(uint32_t number);
/* Checks the number that the inline call returned. */
void returned(int32_t number);

/* says.c: results of the stand-ins, operations that they hand out, and the driver. */
int32_t say(enum call call);
void hand_out(struct dfu_ask *ask);
int erase(void *own, uint32_t at, uint32_t length);
int program(void *own, uint32_t at, const uint8_t *bytes, uint32_t length);
/* With memory as flash, checks that the operation changed exactly its range. */
extern uint8_t *memory;
void memory_is_changed(void);

#endif
