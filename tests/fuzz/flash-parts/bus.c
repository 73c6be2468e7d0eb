#include "bus.h"
#include "books.h"
#include "clock.h"
#include "random.h"
#include "temper.h"
#include "usb.h"

struct bus bus;

static enum mode mode_of(const struct board *board)
{
    return board->model.state <= APP_DETACH ? RUN_TIME : UPGRADE;
}

static void appear(struct board *board)
{
    struct libusb_device *device;
    board->mode = mode_of(board);
    if (board->mode == RUN_TIME && board->has_no_usb_in_app)
        return;
    device = take(sizeof *device);
    device->board = board;
    device->face = board->faces[board->mode];
    device->mode = board->mode;
    device->place = board->place;
    device->address = ++board->address;
    device->is_listed = true;
    board->device = device;
    trace("the board %d is there, in mode %d", (int)(board - bus.boards), board->mode);
}

static void disappear(struct board *board)
{
    struct libusb_device *device = board->device;
    board->device = NULL;
    if (device == NULL)
        return;
    trace("the board %d leaves", (int)(board - bus.boards));
    device->is_listed = false;
    if (device->references == 0 && device->handles == 0)
        give(device);
}

static int64_t away_ms(void)
{
    static const int64_t times[] = {0, 1, 100, 900, 900, 2500, 9000, 12000};
    return temper.is_fair && !chance(20) ? times[below(5)] : times[below(8)];
}

void bus_leave(struct board *board)
{
    disappear(board);
    board->mode = mode_of(board);
    board->back_ms = bus.is_over || chance(400) ? -1 : clock_now() + away_ms();
    if (board->back_ms >= 0 && board->back_ms <= clock_now())
        appear(board);
}

void bus_look(struct board *board)
{
    if (board->mode != mode_of(board))
        bus_leave(board);
}

void bus_elapse(uint64_t ms)
{
    for (unsigned at = 0; at < bus.count; at++) {
        struct board *board = &bus.boards[at];
        model_elapse(&board->model, ms);
        bus_look(board);
        if (board->device == NULL && board->back_ms >= 0 && board->back_ms <= clock_now())
            appear(board);
    }
}

void bus_make(void)
{
    bus.count = chance(60) ? 0 : chance(4) ? between(2, MOST_BOARDS) : 1;
    bus.target = &bus.boards[bus.count == 0 ? 0 : below(bus.count)];
    for (unsigned at = 0; at < bus.count; at++) {
        board_make(&bus.boards[at], at);
        bus.boards[at].back_ms = -1;
        if (!temper.is_fair && chance(2))
            face_spoil(&bus.boards[at].faces[below(2)]);
        appear(&bus.boards[at]);
        if (chance(80))
            bus_leave(&bus.boards[at]);
    }
}

/* Swaps the places of two boards, and removes both from the bus; they return later. */
static void swap(struct board *first, struct board *second)
{
    struct place place = first->place;
    first->place = second->place;
    second->place = place;
    bus_leave(first);
    bus_leave(second);
}

/* Changes a board at random. In a fair run boards keep their descriptors: they only lose power, or can't be opened or claimed for a while.
 */
static void stray(struct board *board)
{
    switch (below(temper.is_fair ? 3 : 10)) {
    case 0:
        model_power(&board->model);
        bus_leave(board);
        break;
    case 1: board->is_in_use = !board->is_in_use && chance(3); break;
    case 2: board->is_denied = !board->is_denied && chance(3); break;
    case 3: board->is_dead = !board->is_dead && chance(4); break;
    case 4: board->model.state = (enum state)below(ERROR + 1); break;
    case 5:
        board->model.state = (enum state)below(ERROR + 1);
        bus_leave(board);
        break;
    case 6: board->place.ports[0] = (uint8_t)between(10, 13); bus_leave(board); break;
    case 7: board->faces[RUN_TIME] = board->faces[below(2)]; bus_leave(board); break;
    case 8: swap(board, &bus.boards[below(bus.count)]); break;
    default:
        face_spoil(&board->faces[below(2)]);
        bus_leave(board);
    }
}

void bus_stray(void)
{
    if (bus.count > 0 && !bus.is_over)
        stray(&bus.boards[below(bus.count)]);
}

void bus_end(void)
{
    bool is_gone = chance(2);
    bus.is_over = true;
    trace("the end of the bus: the boards are %s", is_gone ? "gone" : "dead");
    for (unsigned at = 0; at < bus.count; at++) {
        bus.boards[at].is_dead = true;
        if (is_gone)
            bus_leave(&bus.boards[at]);
    }
}
