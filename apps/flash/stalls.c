/* SPDX-License-Identifier: MIT OR Apache-2.0 */
/* A device in run-time mode may stall GETSTATUS. The standard requires an answer in appIDLE (USB DFU 1.1, appendix A.2.1), but many devices
 * lack it. After two stalls the host resets the bus and requests the status again. Before the first of these resets the program sends its
 * own DETACH, so that the reset leads to DFU mode. dfu_watch.h decides when this happens, and when the session gives up. */
#include "stalls.h"
#include "detach.h"

/* Sends this program's DETACH before the first reset. A device that leaves by itself after that DETACH counts as reset, and one that leaves
 * without an answer as restarted. */
struct answer stalls_reset(const struct dfu_watch *watch, struct wire *wire)
{
    bool is_first = dfu_watch_detaches(watch) && wire->device->info.says_runtime;
    struct answer answer = {0};
    if (is_first)
        answer = detach_send(wire);
    if (is_first && (answer.is_gone || answer.seen == DFU_SEEN_RESTART)) {
        trace_reset(&wire->trace, &answer, 0);
        return answer;
    }
    is_first = is_first && answer.seen == DFU_SEEN_ACK;
    answer = answer_reset(wire);
    if (is_first && detach_await(wire) && wire->is_unreset) {
        wire->is_unreset = false; /* the device left by itself after the failed reset */
        answer.seen = DFU_SEEN_RESTART;
    }
    return answer;
}
