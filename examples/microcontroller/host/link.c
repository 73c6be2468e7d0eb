/* SPDX-License-Identifier: MIT OR Apache-2.0 */
#define _POSIX_C_SOURCE 200809L
#include "link.h"

#include <errno.h>
#include <poll.h>
#include <stdio.h>
#include <string.h>
#include <sys/socket.h>
#include <sys/un.h>
#include <time.h>
#include <unistd.h>

#include "frames.h"

static int listening = -1, line = -1;
static uint8_t number;
static struct frame incoming;
/* Bytes to send: room for a frame of FRAME_MOST bytes and its check sum, all escaped, and two END bytes. */
static uint8_t outgoing[2 * (FRAME_MOST + 2) + 2];
static size_t out_length;

static int64_t now(void) {
    struct timespec time;
    clock_gettime(CLOCK_MONOTONIC, &time);
    return (int64_t)time.tv_sec * 1000 + time.tv_nsec / 1000000;
}

int link_listen(const char *path) {
    struct sockaddr_un at = {.sun_family = AF_UNIX};
    if (strlen(path) >= sizeof at.sun_path) {
        errno = ENAMETOOLONG;
        return -1;
    }
    strcpy(at.sun_path, path);
    listening = socket(AF_UNIX, SOCK_STREAM, 0);
    if (listening < 0 || bind(listening, (struct sockaddr *)&at, sizeof at) != 0)
        return -1;
    return listen(listening, 1);
}

/* Waits until `from` can be read. Returns 1, or 0 if it can't be read before the time `until`. */
static int comes(int from, int64_t until) {
    for (;;) {
        int64_t left = until - now();
        struct pollfd one = {.fd = from, .events = POLLIN};
        int found = poll(&one, 1, left > 0 ? (int)left : 0);
        if (found >= 0 || errno != EINTR)
            return found > 0;
    }
}

int link_accept(int ms) {
    if (!comes(listening, now() + ms))
        return -1;
    line = accept(listening, NULL, NULL);
    memset(&incoming, 0, sizeof incoming);
    return line < 0 ? -1 : 0;
}

static enum link_outcome gone(void) {
    close(line);
    line = -1;
    return LINK_GONE;
}

static void keep(uint8_t byte) {
    outgoing[out_length++] = byte;
}

static int send_all(void) {
    for (size_t at = 0; at < out_length;) {
        ssize_t sent = send(line, outgoing + at, out_length - at, MSG_NOSIGNAL);
        if (sent < 0 && errno == EINTR)
            continue;
        if (sent <= 0)
            return -1;
        at += (size_t)sent;
    }
    return 0;
}

/* Prints the image's text, with '?' for each byte that is not a printable ASCII character. */
static void print_text(void) {
    size_t length = incoming.length - FRAME_HEAD;
    printf("device: ");
    for (size_t i = 0; i < length && i < FRAME_MOST - FRAME_HEAD; i++) {
        uint8_t letter = incoming.bytes[FRAME_HEAD + i];
        putchar(letter >= 0x20 && letter < 0x7f ? letter : '?');
    }
    putchar('\n');
}

/* Events to wait for: an answer with a number from 0 to 255, or one of these. */
enum { A_TEXT = -1, THE_TIME = -2 };

/* Receives frames until the event `wanted`. Returns 1; 0 after the time `until`; or -1 if the device is gone. */
static int await(int wanted, int64_t until) {
    while (comes(line, until)) {
        uint8_t byte;
        ssize_t got = recv(line, &byte, 1, 0);
        if (got < 0 && errno == EINTR)
            continue;
        if (got <= 0)
            return -1;
        if (!frame_take(&incoming, byte))
            continue;
        if (incoming.bytes[0] == FRAME_TEXT) {
            print_text();
            if (wanted == A_TEXT)
                return 1;
        } else if (incoming.bytes[1] == wanted && (incoming.bytes[0] == FRAME_ANSWER || incoming.bytes[0] == FRAME_STALL)) {
            return 1;
        }
    }
    return 0;
}

enum link_outcome link_ask(uint8_t kind, const uint8_t *bytes, size_t length, int ms, uint8_t *answer, size_t room, size_t *count) {
    *count = 0;
    if (line < 0)
        return LINK_GONE;
    if (length > FRAME_MOST - FRAME_HEAD) /* can't happen, because the transfer size is smaller */
        return LINK_SILENT;
    number++;
    out_length = 0;
    frame_send(keep, kind, number, bytes, length);
    if (send_all() != 0)
        return gone();
    int came = await(number, now() + ms);
    if (came <= 0)
        return came < 0 ? gone() : LINK_SILENT;
    if (incoming.bytes[0] == FRAME_STALL)
        return LINK_STALLED;
    size_t got = incoming.length - FRAME_HEAD;
    if (got > FRAME_MOST - FRAME_HEAD)
        return LINK_SILENT;
    memcpy(answer, incoming.bytes + FRAME_HEAD, got < room ? got : room);
    *count = got;
    return LINK_ANSWERED;
}

static int wait_for(int what, int ms) {
    if (line < 0)
        return -1;
    if (await(what, now() + ms) >= 0)
        return 0;
    gone();
    return -1;
}

int link_wait(int ms) {
    return wait_for(THE_TIME, ms);
}

int link_wait_for_text(int ms) {
    return wait_for(A_TEXT, ms);
}
