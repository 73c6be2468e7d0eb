/* The boards on the bus: one, or those of the file USB_BOARDS. */
#ifndef USB_BOARDS_H
#define USB_BOARDS_H

#include <stdbool.h>

/* Reads the boards, once. Returns their number. */
int boards_start(void);

/* Selects a board: settings and state are those of this board from now on. */
void boards_enter(int board);

/* Gives this process the device of a board. A process has at most one. */
void boards_wake(int board);

/* Passes the elapsed time to the selected board's device, if that device is in this process. */
void boards_pass_time(void);

/* Counts a new list of devices. Returns true if the selected board is in it. */
bool boards_lists(void);

#endif
