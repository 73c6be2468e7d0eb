/* The boards on the bus, and the events that change them. */
#ifndef FUZZ_BUS_H
#define FUZZ_BUS_H

#include "board.h"

#define MOST_BOARDS 4

struct bus {
    struct board boards[MOST_BOARDS];
    unsigned count;
    struct board *target; /* the board for which the file and the command line are made */
    bool is_over; /* the run is near its end: all devices are gone or dead for good */
};

extern struct bus bus;

void bus_make(void);

/* Lets `ms` milliseconds pass for all boards. */
void bus_elapse(uint64_t ms);

/* Removes the board from the bus. It returns after some time, in its current mode. */
void bus_leave(struct board *board);

/* Removes a board from the bus if its mode has changed; it returns later. */
void bus_look(struct board *board);

/* Connects, removes or changes a board at random. */
void bus_stray(void);

/* Removes all devices, or stops all their answers. */
void bus_end(void);

#endif
