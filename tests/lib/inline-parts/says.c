/* Results of the stand-ins, each tried in turn: numbers that the header lists for a call, operations, and results of the driver. */
#include <limits.h>
#include <string.h>

#include "dfu_device.h"
#include "monitor.h"

/* The results of each call's stand-in. DFU_WRITE_PENDING is the last one, so that a path with its maximum of operations can leave it
 * out. */
static const struct {
    unsigned count;
    int32_t numbers[6];
} may_say[CALLS] = {[POWER_ON] = {3, {0, DFU_NO_CONFIG, DFU_NO_MEDIUM}},
                    [BEGIN] = {3, {0, DFU_NO_CONFIG, DFU_NO_MEDIUM}},
                    [HANDLE] = {6, {0, 6, DFU_STALL, DFU_NO_MEDIUM, DFU_BUSY, DFU_WRITE_PENDING}},
                    [ELAPSE] = {4, {0, DFU_NO_DEVICE, DFU_BUSY, DFU_WRITE_PENDING}},
                    [USB_RESET] = {3, {0, DFU_NO_BLOCK, DFU_BUSY}},
                    [NEXT] = {3, {0, DFU_NO_BLOCK, DFU_NO_DEVICE}},
                    [TOOK] = {5, {0, 6, DFU_STALL, DFU_NO_DEVICE, DFU_WRITE_PENDING}},
                    [WOULD_STALL] = {4, {0, 1, DFU_NO_DEVICE, DFU_BUSY}},
                    [CLOSES] = {4, {0, 1, DFU_NO_DEVICE, DFU_BUSY}},
                    [TOO_LONG] = {4, {DFU_STALL, DFU_NO_DEVICE, DFU_BUSY, DFU_NOT_LONG}},
                    [REFUSE_CLOSE] = {5, {DFU_STALL, DFU_NO_DEVICE, DFU_BUSY, DFU_NO_STATUS, DFU_NO_CLOSE}},
                    [REFUSE] = {4, {0, DFU_NO_DEVICE, DFU_BUSY, DFU_NO_STATUS}},
                    [CANDIDATE] = {4, {0, DFU_BUSY, DFU_NO_MEDIUM, DFU_NO_CANDIDATE}},
                    [CODE] = {3, {0, 15, DFU_NO_DEVICE}},
                    [IMAGE] = {3, {0, DFU_NO_CONFIG, DFU_NO_MEDIUM}},
                    [IS_BLANK] = {4, {0, 1, DFU_NO_CONFIG, DFU_WRONG_SIZE}},
                    [FUNCTIONAL] = {2, {9, DFU_NO_CONFIG}},
                    [FORMAT_START] = {3, {DFU_NO_CONFIG, DFU_TOO_LARGE, DFU_WRITE_PENDING}},
                    [FORMAT_NEXT] = {3, {0, DFU_NO_CONFIG, DFU_NO_DEVICE}},
                    [FORMAT_TOOK] = {4, {0, DFU_NOT_WRITTEN, DFU_NO_DEVICE, DFU_WRITE_PENDING}},
                    [TRIAL_LOOK] = {4, {0, DFU_NO_MEDIUM, DFU_NO_CONFIG, DFU_NO_SECTORS}},
                    [TRIAL_START] = {4, {0, DFU_NO_MEDIUM, DFU_FEW_TRIES, DFU_WRITE_PENDING}},
                    [TRIAL_START_FROM] = {4, {0, DFU_NO_MEDIUM, DFU_FEW_TRIES, DFU_WRITE_PENDING}},
                    [TRIAL_RUNS] = {2, {0, DFU_NO_MEDIUM}},
                    [TRIAL_CONFIRM] = {4, {0, DFU_ELSEWHERE, DFU_NO_MEDIUM, DFU_WRITE_PENDING}},
                    [TRIAL_END] = {4, {0, DFU_NO_MEDIUM, DFU_MANY_TRIES, DFU_WRITE_PENDING}},
                    [TRIAL_UPLOAD] = {4, {0, DFU_NO_MEDIUM, DFU_MANY_TRIES, DFU_WRITE_PENDING}},
                    [INSTALL_NEXT] = {5, {0, DFU_WRONG_SIZE, DFU_NO_IMAGE, DFU_TOO_LARGE, DFU_WRITE_PENDING}},
                    [INSTALL_TOOK] = {1, {0}},
                    [HOME_NEXT] = {6, {0, DFU_NO_CONFIG, DFU_NO_MEDIUM, DFU_NO_SECTORS, DFU_NOT_WRITTEN, DFU_WRITE_PENDING}},
                    [HOME_TOOK] = {1, {0}},
                    [HOME_MAY_DOWNLOAD] = {4, {0, 1, DFU_NO_CONFIG, DFU_NO_MEDIUM}}};
/* Results of the driver: 0 is success, any other number a failure. A path's first operation tries all of them, the others the first three.
 */
static const int driver_says[] = {0, 1, -1, 256, 65536, INT_MIN};

uint8_t *memory;
static uint8_t memory_before[1024];

int32_t say(enum call call)
{
    unsigned count = may_say[call].count;
    if (may_say[call].numbers[count - 1] == DFU_WRITE_PENDING && asks >= operation_bound)
        count--;
    return answers(call, may_say[call].numbers[count == 1 ? 0 : pick(count)]);
}

void hand_out(struct dfu_ask *ask)
{
    static const uint32_t lengths[] = {256, 1, 16};
    const uint32_t length = lengths[operations % 3];
    memset(ask, 0x5a, sizeof *ask);
    ask->kind = (operations < 3 ? pick(2) : operations % 2) == 0 ? DFU_ERASE : DFU_PROGRAM;
    ask->at = memory != NULL ? 3 + 17 * operations : 0xfffe0100u + operations;
    ask->length = memory == NULL && ask->kind == DFU_ERASE ? 131072 : length;
    for (uint32_t i = 0; i < length; i++)
        ask->bytes[i] = (uint8_t)(operations + i);
    handed = *ask;
    if (memory != NULL)
        memcpy(memory_before, memory, given.size);
}

/* Checks that an operation of the driver is the one that was handed out. */
static int operation(const void *own, uint32_t kind, uint32_t at, uint32_t length)
{
    comes(OPERATION);
    holds(own == given.driver->own, "an operation without the driver's own pointer");
    holds(kind == handed.kind && at == handed.at && length == handed.length, "another operation than the one handed out");
    const int number = driver_says[pick(operations == 0 ? 6 : 3)];
    note_number(number);
    carried(number != 0);
    return number;
}

int erase(void *own, uint32_t at, uint32_t length)
{
    return operation(own, DFU_ERASE, at, length);
}

int program(void *own, uint32_t at, const uint8_t *bytes, uint32_t length)
{
    const int number = operation(own, DFU_PROGRAM, at, length);
    holds(memcmp(bytes, handed.bytes, length) == 0, "other bytes than those handed out");
    return number;
}

void memory_is_changed(void)
{
    holds(handed.at + handed.length <= given.size, "a medium that is too small for this test");
    if (handed.kind == DFU_ERASE)
        memset(memory_before + handed.at, 0xff, handed.length);
    else
        memcpy(memory_before + handed.at, handed.bytes, handed.length);
    holds(memcmp(memory, memory_before, given.size) == 0, "the memory is not as the operation says");
}
