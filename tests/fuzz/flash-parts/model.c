#include "model.h"
#include "random.h"

#include <string.h>

#define TOLERANT 4
#define WILL_DETACH 8

enum code { OK, ERR_WRITE = 3, ERR_PROG = 6, ERR_ADDRESS = 8, ERR_NOTDONE = 9, ERR_STALLED = 15 };

static int error(struct model *model, enum code code)
{
    model->state = ERROR;
    model->code = (uint8_t)code;
    return STALL;
}

static void enter(struct model *model, enum state state)
{
    model->state = state;
    model->passed_ms = 0;
    if (state == DFU_IDLE)
        model->code = OK;
}

void model_power(struct model *model)
{
    model->setting = 0;
    enter(model, APP_IDLE);
    model->code = OK;
}

void model_reset(struct model *model)
{
    enum state before = model->state;
    model_power(model);
    if (before == APP_DETACH)
        enter(model, DFU_IDLE);
}

static void write_block(struct model *model)
{
    if (chance(model->fails)) {
        error(model, ERR_WRITE);
        return;
    }
    memcpy(model->spare.bytes + model->spare.length, model->block, model->block_length);
    model->spare.length += model->block_length;
    model->is_written = true;
}

/* Makes the image active and enters `after`; or the write fails, and the device enters dfuERROR. */
static void put_in_place(struct model *model, enum state after)
{
    if (chance(model->fails)) {
        error(model, ERR_PROG);
        return;
    }
    model->images[model->setting] = model->spare;
    model->is_complete = true;
    enter(model, after);
    if (model->starts_itself)
        model_power(model);
}

static int block(struct model *model, uint16_t number, const uint8_t *body, uint16_t length)
{
    if (length > model->transfer)
        return error(model, ERR_STALLED);
    if (number != model->number || model->taken + length > model->capacity)
        return error(model, ERR_ADDRESS);
    memcpy(model->block, body, length);
    model->block_length = length;
    model->taken += length;
    model->number++;
    model->is_written = false;
    enter(model, DNLOAD_SYNC);
    return 0;
}

static int piece(struct model *model, uint16_t number, uint16_t length, uint8_t *answer)
{
    const struct image *image = &model->images[model->setting];
    uint32_t left = image->length - model->sent, count = left < length ? left : length;
    if (length == 0 || length > model->transfer)
        return error(model, ERR_STALLED);
    if (number != model->number)
        return error(model, ERR_ADDRESS);
    memcpy(answer, image->bytes + model->sent, count);
    model->sent += count;
    model->number++;
    enter(model, count == length ? UPLOAD_IDLE : DFU_IDLE);
    return (int)count;
}

/* Enters the state that GETSTATUS reports. Returns its poll time. */
static uint32_t pass_on(struct model *model)
{
    if (model->state == DNLOAD_SYNC && !model->is_written && model->busy_ms > 0) {
        enter(model, DNBUSY);
        return model->busy_ms;
    }
    if (model->state == DNLOAD_SYNC) {
        if (!model->is_written)
            write_block(model);
        if (model->state == DNLOAD_SYNC)
            enter(model, DNLOAD_IDLE);
    } else if (model->state == MANIFEST_SYNC && model->is_complete)
        enter(model, DFU_IDLE);
    else if (model->state == MANIFEST_SYNC && model->manifest_ms > 0) {
        enter(model, MANIFEST);
        return model->manifest_ms;
    } else if (model->state == MANIFEST_SYNC)
        put_in_place(model, DFU_IDLE);
    else if (model->state == DNBUSY)
        return model->busy_ms - model->passed_ms;
    else if (model->state == MANIFEST)
        return model->manifest_ms - model->passed_ms;
    return 0;
}

static int status(struct model *model, uint16_t length, uint8_t *answer)
{
    bool is_busy = model->state == DNBUSY || model->state == MANIFEST;
    uint32_t poll;
    uint8_t bytes[6];
    if (is_busy && !model->is_patient)
        return error(model, ERR_STALLED);
    if (model->state == WAIT_RESET)
        return STALL;
    poll = pass_on(model);
    memcpy(bytes, (uint8_t[6]){model->code, (uint8_t)poll, (uint8_t)(poll >> 8), (uint8_t)(poll >> 16), (uint8_t)model->state, 0}, 6);
    length = length < 6 ? length : 6;
    memcpy(answer, bytes, length);
    return length;
}

static int in_app(struct model *model, uint8_t request, uint16_t value)
{
    bool may = model->state == APP_IDLE && (!model->is_deaf_in_app || model->takes_detach);
    if (request != 0 || !may) {
        if (model->state == APP_DETACH)
            enter(model, APP_IDLE);
        return STALL;
    }
    enter(model, APP_DETACH);
    model->timer_ms = value < model->detach_ms ? value : model->detach_ms;
    return 0;
}

static int download(struct model *model, uint16_t number, const uint8_t *body, uint16_t length)
{
    if (model->state == DFU_IDLE && length > 0 && (model->attributes & 1) != 0) {
        model->number = 0;
        model->taken = model->spare.length = 0;
        return block(model, number, body, length);
    }
    if (model->state == DNLOAD_IDLE && length > 0)
        return block(model, number, body, length);
    if (model->state != DNLOAD_IDLE)
        return error(model, ERR_STALLED);
    if (model->taken < model->least)
        return error(model, ERR_NOTDONE);
    model->is_complete = false;
    enter(model, MANIFEST_SYNC);
    return 0;
}

static int upload(struct model *model, uint16_t number, uint16_t length, uint8_t *answer)
{
    if (model->state == DFU_IDLE && (model->attributes & 2) != 0) {
        model->number = 0;
        model->sent = 0;
    } else if (model->state != UPLOAD_IDLE)
        return error(model, ERR_STALLED);
    return piece(model, number, length, answer);
}

static int in_dfu(struct model *model, uint8_t request, uint16_t value, uint16_t length, const uint8_t *body, uint8_t *answer)
{
    bool is_idle = model->state == DFU_IDLE || model->state == DNLOAD_IDLE || model->state == UPLOAD_IDLE;
    if (model->state == ERROR && request != 4)
        return STALL;
    if (model->state == WAIT_RESET)
        return STALL;
    if (request == 1)
        return download(model, value, body, length);
    if (request == 2)
        return upload(model, value, length, answer);
    if ((request == 4 && model->state == ERROR) || (request == 6 && is_idle)) {
        enter(model, DFU_IDLE);
        return 0;
    }
    return error(model, ERR_STALLED);
}

int model_handle(struct model *model, const uint8_t setup[8], const uint8_t *body, uint8_t *answer)
{
    uint16_t value = (uint16_t)(setup[2] | setup[3] << 8), length = (uint16_t)(setup[6] | setup[7] << 8);
    bool is_in = setup[0] == 0xa1, is_app = model->state <= APP_DETACH;
    bool is_busy = model->state == DNBUSY || model->state == MANIFEST;
    if (is_app && model->is_deaf_in_app && setup[1] != 0)
        return STALL;
    if (is_in != (setup[1] == 2 || setup[1] == 3 || setup[1] == 5))
        return is_app ? STALL : error(model, ERR_STALLED);
    if (setup[1] == 3)
        return status(model, length, answer);
    if (setup[1] == 5 && !is_busy && model->state != WAIT_RESET) {
        if (length > 0)
            answer[0] = (uint8_t)model->state;
        return length > 0;
    }
    return is_app ? in_app(model, setup[1], value) : in_dfu(model, setup[1], value, length, body, answer);
}

void model_elapse(struct model *model, uint64_t ms)
{
    uint64_t passed = model->passed_ms + ms;
    if (ms == 0)
        return;
    model->passed_ms = passed > UINT32_MAX ? UINT32_MAX : (uint32_t)passed;
    if (model->state == APP_DETACH && (model->attributes & WILL_DETACH) != 0)
        enter(model, DFU_IDLE);
    else if (model->state == APP_DETACH && model->passed_ms >= model->timer_ms)
        enter(model, APP_IDLE);
    else if (model->state == DNBUSY && model->passed_ms >= model->busy_ms) {
        write_block(model);
        if (model->state == DNBUSY)
            enter(model, DNLOAD_SYNC);
    } else if (model->state == MANIFEST && model->passed_ms >= model->manifest_ms)
        put_in_place(model, (model->attributes & TOLERANT) != 0 ? MANIFEST_SYNC : WAIT_RESET);
}
