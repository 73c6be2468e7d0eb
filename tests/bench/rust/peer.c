/* SPDX-License-Identifier: MIT OR Apache-2.0 */
/* A device for the host's session: it stores the payload, and answers as USB DFU 1.1 specifies for a tolerant device without poll times. */
#include "session.h"

#include <string.h>

enum { APP_IDLE = 0, APP_DETACH = 1, IDLE = 2, DNLOAD_SYNC = 3, DNLOAD_IDLE = 5, MANIFEST_SYNC = 6, UPLOAD_IDLE = 9 };

static uint8_t image[IMAGE], state;
static size_t taken, given;

static int32_t status(uint8_t *answer)
{
    state = state == DNLOAD_SYNC ? DNLOAD_IDLE : state == MANIFEST_SYNC ? IDLE : state;
    memset(answer, 0, 6);
    answer[4] = state;
    return 6;
}

static int32_t taking(const uint8_t *body, size_t length)
{
    if (length == 0) {
        state = MANIFEST_SYNC;
        return 0;
    }
    if (state == IDLE)
        taken = 0;
    if (length > sizeof image - taken)
        return -1;
    memcpy(image + taken, body, length);
    taken += length;
    state = DNLOAD_SYNC;
    return 0;
}

static int32_t giving(size_t most, uint8_t *answer)
{
    if (state == IDLE)
        given = 0;
    size_t length = taken - given < most ? taken - given : most;
    memcpy(answer, image + given, length);
    given += length;
    state = length < most ? IDLE : UPLOAD_IDLE;
    return (int32_t)length;
}

int32_t peer_transfer(const uint8_t *setup, const uint8_t *body, size_t length, uint8_t *answer)
{
    switch (setup[1]) {
    case 0: state = APP_DETACH; return 0;
    case 1: return taking(body, length);
    case 2: return giving((size_t)(setup[6] | setup[7] << 8), answer);
    case 3: return status(answer);
    case 5: answer[0] = state; return 1;
    case 4:
    case 6: state = IDLE; return 0;
    default: return -1;
    }
}

void peer_reset(void)
{
    state = state == APP_DETACH ? IDLE : APP_IDLE;
}
