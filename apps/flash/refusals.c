/* SPDX-License-Identifier: MIT OR Apache-2.0 */
/* Reasons why a session doesn't begin: the host's refusals (dfu_host.h), with their names in docs/REFUSALS.md, and this program's own. */
#include "image.h"
#include "messages.h"
#include "session.h"

#include <stddef.h>

struct refusal {
    int32_t number;
    const char *name, *words;
};

static const struct refusal refusals[] = {
    {DFU_FILE_TOO_SHORT, "TooShort", "the file has under 16 bytes, too few for a suffix"},
    {DFU_FILE_NO_SIGNATURE, "NoSignature", "the file has no DFU suffix; `dfu add` gives it one"},
    {IMAGE_FORMAT, "NoSignature", "the file is HEX, S-records, UF2 or ELF; `dfu add --format auto` makes a DFU file of the image in it"},
    {IMAGE_ELF, "NoSignature", "the file is an ELF file of 64 bits or of big-endian numbers; `objcopy -O binary` makes an image of it"},
    {IMAGE_DAMAGED, "NoSignature", "the file is HEX or S-records with a mistake in a line; build it anew"},
    {IMAGE_ARCHIVE, "NoSignature", "the file is a zip or gzip archive; unpack it first"},
    {IMAGE_TEXT, "NoSignature", "the file is text and no image; give the file that the build made"},
    {IMAGE_NAMED, "NoSignature", "the file isn't of the format that its name says: it was cut short or changed; build it anew"},
    {IMAGE_CUT, "NoSignature", "the file's name ends in .dfu, and it has no DFU suffix: it was cut short or changed; get it anew"},
    {DFU_FILE_BAD_LENGTH, "BadLength", "the suffix's length is under 16 or over the file's"},
    {DFU_FILE_BAD_CRC, "BadCrc", "the file's check sum is wrong: it was changed or cut"},
    {DFU_FILE_TOO_LARGE, "TooLarge", "the file has over 16777216 bytes"},
    {DFU_EMPTY_PAYLOAD, "EmptyPayload", "the file has no image in it"},
    {DFU_WRONG_TARGET, "WrongTarget", "the file is for another device; in DFU mode it may have another product: see --device RUN,DFU"},
    {DFU_CANNOT_DOWNLOAD, "CannotDownload", "the device takes no downloads"},
    {DFU_CANNOT_UPLOAD, "CannotUpload", "the device gives no uploads"},
    {DFU_BAD_DESCRIPTOR, "BadDescriptor", "the device's transfer size is 0"},
    {DFU_SHORT, "Short", "the device's functional descriptor is cut off, or it has none"},
    {DFU_LONG, "Long", "the device's functional descriptor is too long"},
    {DFU_WRONG_LENGTH, "WrongLength", "the device's functional descriptor has neither 9 nor 7 bytes"},
    {DFU_WRONG_TYPE, "WrongType", "the device's functional descriptor is of another type"},
    {REFUSED_ANY, "ForAny", "the file is for any device, and --all takes one for a vendor and a product: see --device"},
    {REFUSED_NO_ADDRESS, "NoAddress", "the device speaks DfuSe, and nothing says at which address: see --address"},
    {REFUSED_RUN_TIME, "RunTimeMode", "the device speaks DfuSe and is in run-time mode: bring it to DFU mode first, as by --detach"},
    {REFUSED_NOT_DFUSE, "NotDfuSe", "the device speaks DFU 1.1, which has no addresses"},
    {REFUSED_OWN_ADDRESS, "OwnAddress", "the file is a DfuSe file, which has addresses of its own"},
    {REFUSED_LARGE_BLOCKS, "LargeBlocks", "the device counts in blocks of over 4096 bytes, which Linux does not carry"},
    {REFUSED_NO_RESET, "CannotReset", "this system resets no device: bring it to DFU mode by hand, as by its button, or try --detach"},
    {REFUSED_MIXED, "Mixed", "the file has images for several alternate settings: see --alt"},
    {REFUSED_NO_STAMP, "NoEntry", "the list of --stamp has no entry left"},
    {REFUSED_STAMP_OUTSIDE, "OutsideTheImage", "the place of --stamp-at is not in the image"},
    {REFUSED_NO_ROOM, "NoRoom", "the place of --stamp-at has bytes that are not all the same, so the image has something there"},
    {DFUSE_FILE_TOO_LARGE, "TooLarge", "the file has over 16777216 bytes"},
    {DFUSE_FILE_TOO_SHORT, "TooShort", "the file has under 16 bytes, too few for a suffix"},
    {DFUSE_FILE_NO_SIGNATURE, "NoSignature", "the file begins as a DfuSe file, and has no suffix: it was cut"},
    {DFUSE_FILE_BAD_LENGTH, "BadLength", "the suffix's length is under 16 or over the file's"},
    {DFUSE_FILE_NOT_DFUSE, "NotDfuSeFile", "the file begins as a DfuSe file, and its suffix is of another version"},
    {DFUSE_FILE_BAD_CRC, "BadCrc", "the file's check sum is wrong: it was changed or cut"},
    {DFUSE_FILE_NO_PREFIX, "NoPrefix", "the suffix is that of a DfuSe file, which the file does not begin as"},
    {DFUSE_FILE_BAD_VERSION, "BadVersion", "the file is of another version of DfuSe"},
    {DFUSE_FILE_BAD_SIZE, "BadImageSize", "the file has another size than it says"},
    {DFUSE_FILE_NO_TARGETS, "NoTargets", "the file has no targets"},
    {DFUSE_FILE_NO_TARGET, "NoTarget", "the file has fewer targets than it says"},
    {DFUSE_FILE_BAD_TARGET, "BadTargetSize", "a target of the file has another size than it says"},
    {DFUSE_FILE_PAST_TARGET, "ElementPastTheTarget", "an element of the file ends past its target"},
    {DFUSE_FILE_EMPTY_ELEMENT, "EmptyElement", "an element of the file has no bytes"},
    {DFUSE_FILE_PAST_THE_END, "AddressPastTheEnd", "an element of the file ends past address FFFFFFFF"},
    {DFUSE_FILE_TRAILING, "TrailingBytes", "the file has more bytes after its last target"},
    {DFUSE_FILE_NO_SETTING, "NoSuchSetting", "the file has nothing for this alternate setting"},
    {DFUSE_FILE_TOO_MANY_ELEMENTS, "TooManyElements", "the file has over 256 elements for this alternate setting"},
    {DFUSE_NO_MAP, "NoMap", "the name of the device's setting is no memory map: see --list and --alt"},
    {DFUSE_BAD_ADDRESS, "BadAddress", "the device's memory map has a bad address"},
    {DFUSE_BAD_COUNT, "BadCount", "the device's memory map has a bad count of pages"},
    {DFUSE_BAD_SIZE, "BadSize", "the device's memory map has a bad page size"},
    {DFUSE_BAD_TYPE, "BadType", "the device's memory map has a bad letter for what may be done with pages"},
    {DFUSE_PAST_THE_END, "PastTheEnd", "the device's memory map has pages past address FFFFFFFF"},
    {DFUSE_TOO_MANY_RANGES, "TooManyRanges", "the device's memory map has over 32 ranges"},
    {DFUSE_TRAILING, "Trailing", "the device's memory map has bytes after its last range"},
    {DFUSE_OVERLAPS, "Overlaps", "two ranges of the device's memory map overlap"},
    {DFUSE_NO_TRANSFER, "NoTransferSize", "the device takes blocks of 0 bytes"},
    {DFUSE_EMPTY, "EmptyImage", "the image or one of its elements is empty"},
    {DFUSE_NOT_IN_ORDER, "NotInOrder", "the image's elements do not ascend"},
    {DFUSE_OVERLAPPING, "Overlapping", "the image's elements overlap"},
    {DFUSE_OUTSIDE, "OutsideTheMap", "the image is not all on the memory map: see --list and --alt"},
    {DFUSE_NOT_WRITABLE, "NotWritable", "the image touches a page that cannot be written"},
    {DFUSE_NOT_ERASABLE, "NotErasable", "the image touches a page that cannot be erased, as those of option bytes"},
    {DFUSE_NOT_READABLE, "NotReadable", "the image touches a page that cannot be read back"},
};

static const struct refusal *find(int32_t number)
{
    for (size_t at = 0; at < sizeof refusals / sizeof refusals[0]; at++)
        if (refusals[at].number == number)
            return &refusals[at];
    return NULL;
}

const char *refusal_name(int32_t refusal)
{
    const struct refusal *known = find(refusal);
    return known == NULL ? "Unknown" : known->name;
}

const char *refusal_words(int32_t refusal)
{
    const struct refusal *known = find(refusal);
    return known == NULL ? "the host refuses it" : known->words;
}
