/* SPDX-License-Identifier: MIT OR Apache-2.0 */
/* Meanings of the status codes of USB DFU 1.1 (section 6.1.2). share/man/dfu-flash.1 has the same list; tests/apps/flash compares them. */
#include "standard.h"

/* Status codes that have their own next step. errTARGET, errFILE and errNOTDONE refer to the file that was sent. */
enum {
    ERR_TARGET = 1,
    ERR_FILE = 2,
    ERR_WRITE = 3,
    ERR_ERASE = 4,
    ERR_CHECK_ERASED = 5,
    ERR_PROG = 6,
    ERR_VERIFY = 7,
    ERR_ADDRESS = 8,
    ERR_NOTDONE = 9,
    ERR_FIRMWARE = 10,
    ERR_VENDOR = 11,
    ERR_USBR = 12,
    ERR_POR = 13,
    ERR_UNKNOWN = 14,
    ERR_STALLED = 15,
};

/* Meanings of the codes in the standard. The texts of the commonest codes also name the usual cause. */
static const char *const meanings[] = {
    "there is no error",
    "the file isn't for this device, as the device says",
    "the file is for this device, but fails a test of its maker",
    "the device could not write its memory",
    "the device could not erase its memory",
    "the memory was erased, and isn't empty",
    "the device could not program its memory",
    "what was programmed doesn't read back as it was sent",
    "an address out of range: as a rule the image is larger than the device has room for",
    "the image ended before the device had all that it wants: as a rule it is too small for it",
    "the device's firmware is damaged, and it can't return to it",
    "an error of the maker's own, which its documents explain",
    "the device saw a reset of the bus that it did not expect",
    "the device lost its power, or started anew, unexpectedly",
    "something went wrong, and the device doesn't know what",
    "the device stalled a request that it did not expect",
};

/* Next step for each code after a download, or NULL if the general step of the report applies. */
static const char *const steps[] = {
    [ERR_TARGET] = "get the file that its maker gives for this board, and run it again",
    [ERR_FILE] = "get the file that its maker gives for this board, and run it again",
    [ERR_WRITE] = "run it again; if it stays so, the board's memory is worn or locked",
    [ERR_ERASE] = "run it again; if it stays so, the board's memory is worn or locked",
    [ERR_CHECK_ERASED] = "run it again; if it stays so, the board's memory is worn or locked",
    [ERR_PROG] = "run it again; if it stays so, the board's memory is worn or locked",
    [ERR_VERIFY] = "run it again; if it stays so, the board's memory is worn or locked",
    [ERR_ADDRESS] = "make the image smaller, or get the file for this board, and run it again",
    [ERR_NOTDONE] = "give the whole image, or get the file for this board, and run it again",
    [ERR_FIRMWARE] = "run it again: until an image is whole the board stays in DFU mode; if it stays so, ask its maker",
    [ERR_VENDOR] = "look up in its maker's documents what the board means by it, and run it again",
    [ERR_USBR] = "check cable and power, and run it again",
    [ERR_POR] = "check cable and power, and run it again",
    [ERR_UNKNOWN] = "run it again: U-Boot answers so once after a run that was broken off; if it stays so, get the file for this board",
    [ERR_STALLED] = "run it again; if it stays so, try smaller blocks by --transfer-size, or the maker's tool",
};

const char *code_step(uint32_t code)
{
    return code < sizeof steps / sizeof *steps ? steps[code] : NULL;
}

const char *code_words(uint32_t code, bool is_upload)
{
    bool is_of_file = code == ERR_TARGET || code == ERR_FILE || code == ERR_NOTDONE;
    if (is_upload && is_of_file)
        return "the device gives no image: its code is one for downloads, which its maker explains";
    return code < sizeof meanings / sizeof *meanings ? meanings[code] : "the standard doesn't have this code";
}
