/* Draws the faces of boards. */
#ifndef FUZZ_FACE_H
#define FUZZ_FACE_H

#include "board.h"

/* Makes the face of that board in that mode. */
void face_make(struct face *face, const struct board *board, enum mode mode);

#endif
