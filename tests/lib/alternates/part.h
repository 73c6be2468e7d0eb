/* The part of examples/alternates as memory, which can lose power during an operation. */
#ifndef PART_H
#define PART_H

#include <setjmp.h>

#include "board.h"

enum { TEARS = 4 };

/* operations: their number so far. cut: number of the operation that loses power, or 0. tear: what that operation does: 0 nothing, 1 half,
 * 2 sets every byte to A5h, the value of an open gate, 3 all. Then the test jumps to `off`. */
extern unsigned operations, cut, tear;
extern jmp_buf off;

/* failing: number of the operation that the part reports as failed. lying: number of the one that it reports as done without doing it. 0 is
 * none. */
extern unsigned failing, lying;

#endif
