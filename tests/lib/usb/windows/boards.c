/* Replaces ../boards.c with one board, because several need memory that forked processes share. */
#include "../boards.h"
#include "../bus.h"
#include "posix.h"

#include <windows.h>

int boards_start(void)
{
    bus_start();
    return 1;
}

void boards_enter(int board)
{
    (void)board;
}

void boards_wake(int board)
{
    (void)board;
}

void boards_pass_time(void)
{
    bus_pass_time();
}

bool boards_lists(void)
{
    return bus_lists();
}

int pause(void)
{
    Sleep(INFINITE);
    return -1;
}
