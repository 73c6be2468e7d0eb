/* SPDX-License-Identifier: MIT OR Apache-2.0 */
/* Installs a file on the board and verifies it: the proved host decides each step, and link.c sends it over the serial line. It waits at a
 * socket for QEMU. If the device is gone, it waits for the next connection, and continues. */
#define _POSIX_C_SOURCE 200809L
#include <stdio.h>
#include <stdlib.h>
#include <string.h>

#include "dfu_host.h"
#include "frames.h"
#include "link.h"

enum {
    MOST_FILE = 1 << 18,
    ANSWER_MS = 3000,   /* a request without an answer after this time counts as lost */
    CONNECT_MS = 60000, /* maximum time without a device */
    ABOUT_MS = 300,
    ABOUT_TURNS = 30,
    START_MS = 5000, /* maximum time until an image sends its first text */
    ACTIONS = 100000,
    RESTARTS = 100
};

static uint8_t file[MOST_FILE], answer[65535];

static int read_file(const char *path, size_t *length) {
    FILE *in = fopen(path, "rb");
    if (!in)
        return -1;
    *length = fread(file, 1, sizeof file, in);
    int is_wrong = ferror(in) || fgetc(in) != EOF;
    fclose(in);
    return is_wrong ? -1 : 0;
}

/* Requests the ids and the functional descriptor of the device, as a host does for each new device on the bus. The device may still be
 * starting, so the request is repeated; it changes nothing. */
static enum link_outcome greet(uint8_t about[FRAME_ABOUT_LENGTH]) {
    enum link_outcome outcome = LINK_SILENT;
    for (int turn = 0; turn < ABOUT_TURNS && outcome == LINK_SILENT; turn++) {
        size_t count;
        outcome = link_ask(FRAME_ABOUT, file, 0, ABOUT_MS, about, FRAME_ABOUT_LENGTH, &count);
        if (outcome == LINK_ANSWERED && count != FRAME_ABOUT_LENGTH)
            outcome = LINK_SILENT;
    }
    return outcome;
}

/* Waits until a device answers and its image has sent a text. Without the second wait a fast host would begin the upgrade before the image
 * runs. */
static int connect_device(uint8_t about[FRAME_ABOUT_LENGTH]) {
    while (link_accept(CONNECT_MS) == 0) {
        printf("connected\n");
        if (greet(about) == LINK_ANSWERED && link_wait_for_text(START_MS) == 0)
            return 0;
        printf("gone\n");
    }
    return -1;
}

static uint32_t seen_of(enum link_outcome outcome, const struct dfu_action *action) {
    switch (outcome) {
    case LINK_ANSWERED: return action->what == DFU_RESET ? DFU_SEEN_RESET : action->setup[0] & 0x80 ? DFU_SEEN_BYTES : DFU_SEEN_ACK;
    case LINK_STALLED: return DFU_SEEN_STALL;
    case LINK_SILENT: return DFU_SEEN_NOTHING;
    default: return DFU_SEEN_RESTART;
    }
}

/* Carries out one action. Returns its outcome as a DFU_SEEN_ number, with the number of received bytes in `count`. */
static uint32_t act(const struct dfu_action *action, size_t *count) {
    uint8_t frame[FRAME_MOST], about[FRAME_ABOUT_LENGTH];
    *count = 0;
    if (action->what == DFU_WAIT)
        return link_wait((int)action->value) == 0 ? DFU_SEEN_WAIT : DFU_SEEN_RESTART;
    if (action->what == DFU_RESET) {
        enum link_outcome outcome = link_ask(FRAME_RESET, file, 0, ANSWER_MS, answer, sizeof answer, count);
        if (outcome == LINK_ANSWERED)
            outcome = greet(about);
        return seen_of(outcome, action);
    }
    if (action->length > sizeof frame - 8)
        return DFU_SEEN_NOTHING;
    memcpy(frame, action->setup, 8);
    memcpy(frame + 8, file + action->from, action->length);
    return seen_of(link_ask(FRAME_SETUP, frame, 8 + action->length, ANSWER_MS, answer, sizeof answer, count), action);
}

/* Runs a session to its end. Returns its report, or -1 if no device reconnected in time or the library refused a call. */
static int32_t run(struct dfu_session *session, uint64_t payload) {
    for (;;) {
        struct dfu_action action;
        uint8_t none[1], about[FRAME_ABOUT_LENGTH];
        size_t count;
        if (dfu_host_next(session, file, payload, &action) != 0)
            return -1;
        if (action.what == DFU_DONE)
            return (int32_t)action.value;
        uint32_t seen = act(&action, &count);
        if (seen == DFU_SEEN_RESTART) {
            printf("gone\n");
            if (connect_device(about) != 0)
                return -1;
        }
        if (dfu_host_take(session, file, payload, none, 0, seen, answer, count) != 0)
            return -1;
    }
}

static uint16_t word(const uint8_t *at) {
    return (uint16_t)(at[0] | at[1] << 8);
}

int main(int count, char **words) {
    size_t length;
    struct dfu_file said;
    struct dfu_session session;
    uint8_t about[FRAME_ABOUT_LENGTH], name[16];
    if (count != 3 || dfu_host_version() != DFU_VERSION) {
        fprintf(stderr, "usage: flasher SOCKET FILE\n");
        return 2;
    }
    setvbuf(stdout, NULL, _IOLBF, 0);
    if (read_file(words[2], &length) != 0 || link_listen(words[1]) != 0) {
        perror("flasher");
        return 1;
    }
    printf("listening\n");
    if (connect_device(about) != 0) {
        printf("no device came\n");
        return 1;
    }
    struct dfu_ids ids = {word(about), word(about + 2), word(about + 4)};
    int32_t refusal = dfu_host_file(file, length, &said);
    if (refusal == 0)
        refusal = dfu_host_verified(&session, file, length, about + 6, 9, &ids, ACTIONS, RESTARTS);
    if (refusal != 0) {
        printf("refused %d\n", (int)refusal);
        return 1;
    }
    int32_t report = run(&session, said.payload);
    int32_t letters = report < 0 ? 0 : dfu_host_name((uint32_t)report, name, sizeof name);
    printf("report %.*s\n", (int)letters, (const char *)name);
    link_wait(1000);
    return report == DFU_VERIFIED ? 0 : 1;
}
