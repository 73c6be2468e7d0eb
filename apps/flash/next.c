/* SPDX-License-Identifier: MIT OR Apache-2.0 */
/* Tables of the next steps. The manual has the same texts. */
#include "next.h"
#include "advice.h"
#include "image.h"
#include "messages.h"
#include "session.h"

#include <stdio.h>
#include <string.h>

/* tests/lib/usb/next.sh parses these tables. */
/* clang-format off */
static const struct {
    const char *name, *step;
} ends[] = {
    {"detached", "run the download"},
    {"unconfirmed", "look whether it runs the new image; some boards give no better report (see REPORTS in man dfu-flash)"},
    {"different", "run it again; if it stays so: see DEVICES in man dfu-flash, or with DfuSe suspect map or memory"},
    {"refused", "go by the code (see CODES in man dfu-flash), and check that the file is for this board"},
    {"read-protected", "take the protection away with ST's tool, which erases all; then run it again"},
    {"gave-up", "check cable and device, and run it again; if it stays so, allow more actions by --limits"},
    {"restarts-spent", "check power and cable, and run it again"},
    {"timed-out", "run it again with a longer --timeout"},
    {"too-many-blocks", "a download: --no-verify"},
    {"no-memory", "free memory, and run the upload again"},
    {"aborted", "run it again"},
    {"gone", "plug it in, run it again with --wait; if it took the image and its application has no DFU: see DEVICES in man dfu-flash"},
    {"silent", "unplug it, plug it in again, and run it again"},
    {"not-dfu", "bring it to DFU mode, by its button or --detach, and run it again"},
    {"many", "choose by --interface or --alt from --list, and run it again"},
    {"other", "plug in only the one that is meant, or choose it by --path or --serial; run it again"},
    {"stalled", "bring it to DFU mode by hand, and run it again, or with --no-verify if it took the whole image"},
    {"not-detached", "bring it to DFU mode by hand"},
    {"not-reset", "unplug it, plug it in again, and run it again unless the image came whole"},
    {"broken", "report it, with the trace of --verbose"},
    {"none", "plug it in with a cable that has data lines, bring it to DFU mode by its button, and run it again; --wait waits for it"},
    {"no-access", "get the right to open it (see ACCESS in man dfu-flash), plug it in again, or end the program that has it; run it again"},
    {"several", "choose one of those that are listed, by --path, --serial, --interface or --alt; --all takes each"},
    {"file", "put that right, and run it again"},
};

#define ANEW "get the file anew"
#define BUILD "build it anew"
#define FILE_MAKER "tell the maker of the file"
#define MAKER "tell the maker of the device"
#define NAMED "name the device by --device VID:PID, or for a DfuSe device give --address; `dfu add` makes a file that needs neither"
#define SHORT "get the file anew; if it is a raw image so small, name the device by --device VID:PID"
#define ITS_TOOL "use the maker's tool"
#define THIS_MEMORY "use the image for this memory, or another setting by --alt"

static const struct {
    int32_t number;
    const char *step;
} refusals[] = {
    {DFU_FILE_TOO_SHORT, SHORT},
    {DFU_FILE_NO_SIGNATURE, NAMED},
    {IMAGE_FORMAT, "run `dfu add --format auto`, and flash what it makes"},
    {IMAGE_ELF, "run `objcopy -O binary` of the board's compiler, and flash what it makes"},
    {IMAGE_DAMAGED, BUILD},
    {IMAGE_ARCHIVE, "unpack it, and flash the file that is in it; if the board takes the archive, add --raw"},
    {IMAGE_TEXT, "flash the build's .bin, .dfu, .hex or .elf, the last two by `dfu add --format auto`; if the board takes text, add --raw"},
    {IMAGE_NAMED, BUILD},
    {IMAGE_CUT, "get the file anew; if it is whole, and never had a suffix, add --raw"},
    {DFU_FILE_BAD_LENGTH, ANEW},
    {DFU_FILE_BAD_CRC, ANEW},
    {DFU_FILE_TOO_LARGE, "give a file of at most 16777216 bytes"},
    {DFU_EMPTY_PAYLOAD, BUILD},
    {DFU_WRONG_TARGET, "give the file for this device, or choose the device that the file is for; see --device"},
    {DFU_CANNOT_DOWNLOAD, ITS_TOOL},
    {DFU_CANNOT_UPLOAD, ITS_TOOL},
    {DFU_BAD_DESCRIPTOR, "say how large blocks are by --transfer-size"},
    {DFU_SHORT, MAKER},
    {DFU_LONG, MAKER},
    {DFU_WRONG_LENGTH, MAKER},
    {DFU_WRONG_TYPE, MAKER},
    {REFUSED_ANY, "name the devices by --device VID:PID"},
    {REFUSED_NO_ADDRESS, "say where by --address, and of an upload how much by --length"},
    {REFUSED_RUN_TIME, "run dfu-flash --detach, and then this again"},
    {REFUSED_NOT_DFUSE, "use a file of DFU 1.1, with no --address"},
    {REFUSED_OWN_ADDRESS, "leave --address out"},
    {REFUSED_LARGE_BLOCKS, ITS_TOOL},
    {REFUSED_NO_RESET, "bring it to DFU mode by its button, or by --detach, and run it again"},
    {REFUSED_MIXED, "name the setting by --alt"},
    {REFUSED_NO_STAMP, "add entries to the list, and run it again"},
    {REFUSED_STAMP_OUTSIDE, "correct --stamp-at, which counts from the image's first byte, or with DfuSe is an address"},
    {REFUSED_NO_ROOM, "correct --stamp-at; or build the image with room there, such as bytes that are all ff"},
    {DFUSE_FILE_TOO_LARGE, "give a file of at most 16777216 bytes"},
    {DFUSE_FILE_TOO_SHORT, SHORT},
    {DFUSE_FILE_NO_SIGNATURE, ANEW},
    {DFUSE_FILE_BAD_LENGTH, ANEW},
    {DFUSE_FILE_NOT_DFUSE, FILE_MAKER},
    {DFUSE_FILE_BAD_CRC, ANEW},
    {DFUSE_FILE_NO_PREFIX, "get the file anew; or take the suffix off a raw image by `dfu-suffix -D`, and say where by --address"},
    {DFUSE_FILE_BAD_VERSION, FILE_MAKER},
    {DFUSE_FILE_BAD_SIZE, FILE_MAKER},
    {DFUSE_FILE_NO_TARGETS, FILE_MAKER},
    {DFUSE_FILE_NO_TARGET, FILE_MAKER},
    {DFUSE_FILE_BAD_TARGET, FILE_MAKER},
    {DFUSE_FILE_PAST_TARGET, FILE_MAKER},
    {DFUSE_FILE_EMPTY_ELEMENT, FILE_MAKER},
    {DFUSE_FILE_PAST_THE_END, FILE_MAKER},
    {DFUSE_FILE_TRAILING, FILE_MAKER},
    {DFUSE_FILE_NO_SETTING, "name a setting by --alt that the file has something for"},
    {DFUSE_FILE_TOO_MANY_ELEMENTS, "make the image of fewer parts"},
    {DFUSE_NO_MAP, "name a setting by --alt that has a map in --list"},
    {DFUSE_BAD_ADDRESS, MAKER},
    {DFUSE_BAD_COUNT, MAKER},
    {DFUSE_BAD_SIZE, MAKER},
    {DFUSE_BAD_TYPE, MAKER},
    {DFUSE_PAST_THE_END, MAKER},
    {DFUSE_TOO_MANY_RANGES, MAKER},
    {DFUSE_TRAILING, MAKER},
    {DFUSE_OVERLAPS, MAKER},
    {DFUSE_NO_TRANSFER, MAKER},
    {DFUSE_EMPTY, ANEW},
    {DFUSE_NOT_IN_ORDER, BUILD},
    {DFUSE_OVERLAPPING, BUILD},
    {DFUSE_OUTSIDE, "use the image for this memory, or another address or setting; see --list"},
    {DFUSE_NOT_WRITABLE, THIS_MEMORY},
    {DFUSE_NOT_ERASABLE, THIS_MEMORY},
    {DFUSE_NOT_READABLE, THIS_MEMORY},
};
/* clang-format on */

#define COUNT(table) (sizeof(table) / sizeof *(table))

static bool is_hushed, is_for_all;

const char *next_of_end(const char *name)
{
    if (is_for_all && strcmp(name, "broken") == 0)
        return advice_or("report it, with the log of --log FOLDER");
    for (size_t at = 0; at < COUNT(ends); at++)
        if (strcmp(ends[at].name, name) == 0)
            return advice_or(ends[at].step);
    return NULL;
}

const char *next_of_session(const char *name, bool is_cut)
{
    return is_cut ? "make room, or name another place for the log: it lacks lines, and the device has what the report says"
                  : next_of_end(name);
}

const char *next_of_refusal(int32_t refusal)
{
    for (size_t at = 0; at < COUNT(refusals); at++)
        if (refusals[at].number == refusal)
            return advice_or(refusals[at].step);
    return NULL;
}

void next_for_all(void)
{
    is_for_all = true;
}

void next_hush(void)
{
    is_hushed = true;
}

void next_say(const char *step)
{
    if (step != NULL && !is_hushed)
        say_text(stderr, *say_mark != '\0' ? "simulated: next: " : "next: ", step, "\n");
}
