/* SPDX-License-Identifier: MIT OR Apache-2.0 */
#include "check.h"

uint8_t signed_status(enum signed_verdict verdict) {
    return verdict == SIGNED_OTHER_BOARD || verdict == SIGNED_OLDER ? 1 : 2;
}

const char *signed_name(enum signed_verdict verdict) {
    static const char *const names[] = {
        "taken",     "no header",       "wrong lengths", "wrong flags", "wrong TLVs", "wrong digest",
        "other key", "wrong signature", "other board",   "no counter",  "older",
    };
    return (unsigned)verdict < sizeof names / sizeof names[0] ? names[verdict] : "?";
}
