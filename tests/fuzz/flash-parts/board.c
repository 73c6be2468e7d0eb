#include "board.h"
#include "face.h"
#include "random.h"

#include <stdio.h>
#include <string.h>

static uint32_t some_ms(void)
{
    static const uint32_t times[] = {0, 0, 1, 5, 20, 300, 4000, 20000};
    return times[below(sizeof times / sizeof times[0])];
}

/* Draws a wTransferSize, most often one that real boards have. */
static uint16_t transfer(void)
{
    static const uint16_t sizes[] = {8, 16, 64, 64, 128, 256, 512, 1024, 1024, 2048, 4096, 4096, 8192, 65535};
    return chance(12) ? (uint16_t)between(1, 300) : sizes[below(sizeof sizes / sizeof sizes[0])];
}

static void make_model(struct model *model)
{
    memset(model, 0, sizeof *model);
    model->attributes = chance(25) ? (uint8_t)below(256) : (uint8_t)(3 | below(4) << 2);
    if (chance(6))
        model->attributes &= (uint8_t)~2;
    model->detach_ms = (uint16_t)(chance(2) ? 255 : below(chance(4) ? 65536 : 2000));
    model->transfer = transfer();
    model->busy_ms = some_ms();
    model->manifest_ms = some_ms();
    if ((model->attributes & 4) == 0 && model->manifest_ms == 0)
        model->manifest_ms = 1;
    model->least = chance(20) ? 100 : 1;
    model->capacity = chance(10) ? between(1, 500) : MOST_IMAGE;
    model->fails = chance(10) ? between(2, 40) : 0;
    model->is_patient = chance(3);
    model->starts_itself = chance(8);
    model->is_deaf_in_app = chance(10);
    model->takes_detach = chance(2);
    for (unsigned at = 0; at < MOST_SETTINGS; at++) {
        model->images[at].length = chance(8) ? 0 : below(600);
        any_bytes(model->images[at].bytes, model->images[at].length);
    }
}

/* Draws the initial state. A board without DFU in run-time mode begins in DFU mode, because no host can send it a DETACH. */
static void make_state(struct board *board)
{
    struct model *model = &board->model;
    bool has_dfu_in_app = !board->has_no_usb_in_app && board_function(&board->faces[RUN_TIME])->settings[0].class == 0xfe;
    model_power(model);
    if (!has_dfu_in_app || chance(2))
        model->state = chance(4) ? (enum state)between(DFU_IDLE, ERROR) : DFU_IDLE;
    if (model->state == ERROR)
        model->code = (uint8_t)below(16);
}

static void make_place(struct place *place, unsigned number)
{
    place->bus = (uint8_t)(chance(30) ? 255 : between(1, 2));
    place->depth = chance(60) ? 0 : chance(30) ? 7 : (int)between(1, 3);
    for (int at = 0; at < place->depth; at++)
        place->ports[at] = (uint8_t)(chance(30) ? 255 : between(1, 4));
    if (place->depth > 0)
        place->ports[place->depth - 1] = (uint8_t)(10 + number);
}

void board_make(struct board *board, unsigned number)
{
    memset(board, 0, sizeof *board);
    make_place(&board->place, number);
    make_model(&board->model);
    board->has_no_usb_in_app = chance(20);
    board->is_in_use = chance(60);
    board->is_denied = chance(60);
    board->address = (uint8_t)(2 + number);
    face_make(&board->faces[RUN_TIME], board, RUN_TIME);
    face_make(&board->faces[UPGRADE], board, UPGRADE);
    make_state(board);
}

void place_path(const struct place *place, char path[64])
{
    int at = snprintf(path, 64, "%u", place->bus);
    for (int port = 0; port < place->depth; port++)
        at += snprintf(path + at, (size_t)(64 - at), "%c%u", port == 0 ? '-' : '.', place->ports[port]);
}
