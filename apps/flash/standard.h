/* SPDX-License-Identifier: MIT OR Apache-2.0 */
/* Numbers and names of USB DFU 1.1 that dfu_host.h lacks: those of setup packets (section 3), of the functional descriptor (section 4.1.3),
 * of interfaces (sections 4.1.2 and 4.2.3), and of states and status codes (section 6.1.2). apps/web/names.js has the same. */
#ifndef DFU_FLASH_STANDARD_H
#define DFU_FLASH_STANDARD_H

#include <stdbool.h>
#include <stddef.h>
#include <stdint.h>

/* bmRequestType of a class request for an interface, from the host or from the device. */
enum {
    KIND_OUT = 0x21,
    KIND_IN = 0xa1,
    KIND_IS_IN = 0x80 /* bit of a request that the device answers with data */
};

enum {
    REQUEST_DETACH = 0,
    REQUEST_DNLOAD = 1,
    REQUEST_UPLOAD = 2,
    REQUEST_GETSTATUS = 3,
    REQUEST_CLRSTATUS = 4,
    REQUEST_GETSTATE = 5,
    REQUEST_ABORT = 6
};

/* Lengths of the answers in bytes, and the offset of bState in a status. */
enum { GETSTATUS_BYTES = 6, GETSTATUS_STATE = 4, GETSTATE_BYTES = 1 };

/* States and status codes that decide the program's actions. */
enum {
    STATE_IDLE = 2,
    STATE_SYNC = 3,
    STATE_BUSY = 4,
    STATE_DNLOAD_IDLE = 5,
    STATE_MANIFEST_SYNC = 6,
    STATE_MANIFEST = 7,
    STATE_ERROR = 10
};
enum { CODE_OK = 0, CODE_VENDOR = 11, CODE_STALLED = 15 };

/* The functional descriptor: its type, the offsets of its fields, and the bits of bmAttributes. */
enum {
    FUNCTIONAL_TYPE = 0x21,
    FUNCTIONAL_BYTES = 9,
    FUNCTIONAL_BYTES_1_0 = 7, /* size in DFU 1.0, without bcdDFUVersion */
    AT_ATTRIBUTES = 2,
    AT_DETACH_MS = 3,
    AT_TRANSFER = 5,
    AT_VERSION = 7,
    CAN_DOWNLOAD = 1,
    CAN_UPLOAD = 2,
    IS_TOLERANT = 4,
    WILL_DETACH = 8,
    VERSION_1_1 = 0x0110,
    VERSION_DFUSE = 0x011a /* used by STM32, not part of DFU 1.1 */
};

/* Interfaces with DFU: class, subclass, and the protocol in each mode. */
enum { INTERFACE_CLASS = 0xfe, INTERFACE_SUBCLASS = 1, PROTOCOL_RUNTIME = 1, PROTOCOL_DFU_MODE = 2 };

/* Vendor or product in a suffix that matches any device (appendix B). */
enum { ANY_ID = 0xffff };

/* Returns the name of a status code, or "?" if no code has the number. ../common/names.h has the names of requests and states. */
const char *code_name(uint32_t code);

/* Returns the meaning of a status code with which a device refused a download or an upload. */
const char *code_words(uint32_t code, bool is_upload);

/* Returns the next step for a status code of a download, or NULL if it has none of its own. */
const char *code_step(uint32_t code);

/* Offsets of suffix fields, counted back from the end of the file (appendix B). */
#define PRODUCT_BACK 14
#define VENDOR_BACK 12

/* Reads a 16-bit number with the low byte first. */
static inline uint16_t two_bytes(const uint8_t *bytes)
{
    return (uint16_t)(bytes[0] | bytes[1] << 8);
}

/* Read a setup packet: is_request tests for a request, setup_value returns wValue, and setup_length returns wLength. */
static inline bool is_request(const uint8_t setup[8], uint8_t kind, uint8_t request)
{
    return setup[0] == kind && setup[1] == request;
}

static inline uint16_t setup_value(const uint8_t setup[8])
{
    return two_bytes(setup + 2);
}

static inline uint16_t setup_length(const uint8_t setup[8])
{
    return two_bytes(setup + 6);
}

/* Returns true if a functional descriptor of `size` bytes has this bit of bmAttributes. */
static inline bool has_attribute(const uint8_t *descriptor, size_t size, uint8_t bit)
{
    return size >= FUNCTIONAL_BYTES_1_0 && (descriptor[AT_ATTRIBUTES] & bit) != 0;
}

#endif
