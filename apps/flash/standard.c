/* SPDX-License-Identifier: MIT OR Apache-2.0 */
/* Names of the status codes. */
#include "standard.h"

static const char *const codes[] = {
    "OK",         "errTARGET",  "errFILE",     "errWRITE",  "errERASE", "errCHECK_ERASED", "errPROG",    "errVERIFY",
    "errADDRESS", "errNOTDONE", "errFIRMWARE", "errVENDOR", "errUSBR",  "errPOR",          "errUNKNOWN", "errSTALLEDPKT",
};

const char *code_name(uint32_t code)
{
    return code < sizeof codes / sizeof *codes ? codes[code] : "?";
}
