/* Measures the stack depth of each call: a thread runs it on a painted stack. Argument: the maximum number of bytes. */
#include "painted.h"
#include <stdio.h>

#include "dfu_host.h"

static const uint8_t descriptor[9] = {9, 0x21, 7, 255, 0, 0, 16, 0x10, 1};
static const struct dfu_ids ids = {0x0100, 1, 0x1209};
static const uint8_t ones[20] = {255, 255, 255, 255, 255, 255, 255, 255, 255, 255, 0, 1, 'U', 'F', 'D', 16, 113, 200, 81, 12};
static const uint8_t idle[6] = {0, 0, 0, 0, 2, 0};
static struct dfu_session session;
static struct dfu_action action;
static struct dfu_file said;
static uint8_t buffer[4096], part[4096];

static void *run(void *word) {
    switch (*(int *)word) {
    case 1: dfu_host_file(ones, 20, &said); break;
    case 2: dfu_host_verified(&session, ones, 20, descriptor, 9, &ids, 100, 1); break;
    case 3: dfu_host_next(&session, ones, 4, &action); break;
    case 4: dfu_host_take(&session, ones, 4, buffer, 0, DFU_SEEN_BYTES, idle, 6); break;
    case 5: dfu_host_upload(&session, descriptor, 9, 100, 1); break;
    case 6: dfu_host_take(&session, ones, 0, buffer, sizeof buffer, DFU_SEEN_BYTES, idle, 6); break;
    case 7: dfu_host_take(&session, ones, 0, buffer, sizeof buffer, DFU_SEEN_BYTES, part, sizeof part); break;
    case 8: dfu_host_abort(&session, ones, 0); break;
    case 9: dfu_host_name(DFU_INSTALLED, buffer, sizeof buffer); break;
    }
    return word;
}

int main(int count, char **words) {
    static const char *const names[] = {"nothing", "file", "verified", "next", "take, a status", "upload", "take, a status",
        "take, a part of 4,096", "abort", "name"};
    size_t empty = 0, most = 0, allowed = count > 1 ? (size_t)atol(words[1]) : 0;
    for (int call = 0; call < 10; call++) {
        const size_t deep = touched(run, &call);
        if (call == 0)
            empty = deep;
        else
            printf("%-22s %6zu bytes of stack\n", names[call], deep - empty);
        most = deep > empty && deep - empty > most ? deep - empty : most;
    }
    return most > allowed || session.phase != 22;
}
