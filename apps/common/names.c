/* SPDX-License-Identifier: MIT OR Apache-2.0 */
#include "names.h"

#include <stddef.h>

static const char *const requests[] = {"DETACH", "DNLOAD", "UPLOAD", "GETSTATUS", "CLRSTATUS", "GETSTATE", "ABORT"};

static const char *const states[] = {
    "appIDLE",        "appDETACH",        "dfuIDLE",     "dfuDNLOAD-SYNC",         "dfuDNBUSY",
    "dfuDNLOAD-IDLE", "dfuMANIFEST-SYNC", "dfuMANIFEST", "dfuMANIFEST-WAIT-RESET", "dfuUPLOAD-IDLE",
    "dfuERROR",
};

const char *request_name(uint8_t request)
{
    return request < sizeof requests / sizeof *requests ? requests[request] : "?";
}

const char *state_name(int32_t state)
{
    return state >= 0 && (size_t)state < sizeof states / sizeof *states ? states[state] : "?";
}
