/* SPDX-License-Identifier: MIT OR Apache-2.0 */
/* Detects files that aren't images. Without this check the device would receive such a file as its image, and the program would report it
 * as verified. The library detects the format, and this file prints the format and the next step. */
#include "looks.h"
#include "image.h"
#include "messages.h"
#include "../common/text.h"

#include <ctype.h>
#include <inttypes.h>
#include <string.h>

/* The four formats from which `dfu add` extracts an image, with their values for --format. */
static const struct {
    const char *name, *format;
} formats[] = {
    [DFU_LOOKS_IHEX] = {"Intel HEX", "ihex"},
    [DFU_LOOKS_SREC] = {"Motorola S-records", "srec"},
    [DFU_LOOKS_UF2] = {"UF2", "uf2"},
    [DFU_LOOKS_ELF] = {"an ELF file", "elf"},
};

/* Formats by file name extension. */
static const char *const nameds[] = {
    [DFU_NAMED_IHEX] = "Intel HEX",
    [DFU_NAMED_SREC] = "S-records",
    [DFU_NAMED_UF2] = "UF2",
    [DFU_NAMED_ELF] = "ELF file",
};

/* Archive formats that the library treats as raw bytes, with their first bytes. */
static const struct {
    const char *name, *front;
    size_t length;
} archives[] = {
    {"xz",
     "\xfd"
     "7zXZ",
     6},
    {"bzip2", "BZh", 3},
    {"7z", "7z\xbc\xaf\x27\x1c", 6},
    {"zstd", "\x28\xb5\x2f\xfd", 4},
    {"rar", "Rar!\x1a\x07", 6},
};

#define TAR_AT 257
#define ELF_CLASS 4 /* offset of EI_CLASS, a byte that is 2 for 64 bits */
#define ELF_ORDER 5 /* offset of EI_DATA, a byte that is 2 for big-endian */

/* Returns the kind of archive that the bytes look like, or NULL for none. */
static const char *archive_of(const uint8_t *bytes, size_t length, uint32_t looks)
{
    if (looks == DFU_LOOKS_ZIP || looks == DFU_LOOKS_GZIP)
        return looks == DFU_LOOKS_ZIP ? "zip" : "gzip";
    for (size_t at = 0; at < sizeof archives / sizeof *archives; at++)
        if (length > archives[at].length && memcmp(bytes, archives[at].front, archives[at].length) == 0)
            return archives[at].name;
    return length > TAR_AT + 5 && memcmp(bytes + TAR_AT, "ustar", 5) == 0 ? "tar" : NULL;
}

/* Returns true for a 64-bit or big-endian ELF file, which `dfu add` refuses. */
static bool is_foreign_elf(const uint8_t *bytes, size_t length)
{
    return length > ELF_ORDER && (bytes[ELF_CLASS] == 2 || bytes[ELF_ORDER] == 2);
}

struct dfu_look looks_of(const uint8_t *bytes, size_t length, const char *file)
{
    struct dfu_look look = {.looks = DFU_LOOKS_TEXT};
    const char *name = strcmp(file, "-") == 0 ? "" : file;
    dfu_image_look(bytes, length, (const uint8_t *)name, strlen(name), &look);
    return look;
}

void looks_warn(const uint8_t *bytes, size_t length)
{
    uint32_t looks = looks_of(bytes, length, "-").looks;
    const char *less = looks == DFU_LOOKS_ELF ? "unless the board loads ELF files, " : "", *archive = archive_of(bytes, length, looks);
    if (looks == DFU_LOOKS_ELF && is_foreign_elf(bytes, length))
        fprintf(stderr,
                "%sdfu-flash: the image in the file looks like an ELF file: %sadd a suffix to what `objcopy -O binary` makes of it\n",
                say_mark, less);
    else if (looks == DFU_LOOKS_IHEX || looks == DFU_LOOKS_SREC || looks == DFU_LOOKS_UF2 || looks == DFU_LOOKS_ELF)
        fprintf(stderr, "%sdfu-flash: the image in the file looks like %s: %s`dfu add --format %s` takes out the image that it describes\n",
                say_mark, formats[looks].name, less, formats[looks].format);
    else if (archive != NULL)
        fprintf(stderr,
                "%sdfu-flash: the image in the file looks like a %s archive: unless the board unpacks it, add a suffix to what is in it\n",
                say_mark, archive);
    else if (looks == DFU_LOOKS_TEXT)
        fprintf(stderr, "%sdfu-flash: the image in the file is text: unless the board takes text, add a suffix to the build's image\n",
                say_mark);
}

void looks_warn_raw(const uint8_t *bytes, size_t length)
{
    const char *archive = archive_of(bytes, length, DFU_LOOKS_RAW);
    if (archive != NULL)
        fprintf(stderr, "%sdfu-flash: the file looks like a %s archive: unless the board unpacks it, unpack it first\n", say_mark, archive);
}

/* Prints the file name as one shell word, with ./ before a leading hyphen, and a blank. For standard input, or a name that can't be typed,
 * prints FILE. */
static void say_file(const char *name)
{
    char word[1024];
    bool can = strcmp(name, "-") != 0 && text_word(name, word, sizeof word);
    if (can && *name == '-')
        fprintf(stderr, *word == '\'' ? "'./%s " : "./%s ", word + (*word == '\''));
    else
        fprintf(stderr, "%s ", can ? word : "FILE");
}

/* Returns the offset at which a line begins. Lines are counted from 1, and a byte order mark is skipped. Returns `length` if the file has
 * fewer lines. */
static size_t line_at(const uint8_t *bytes, size_t length, uint64_t line)
{
    static const uint8_t mark[] = {0xef, 0xbb, 0xbf};
    size_t at = length >= sizeof mark && memcmp(bytes, mark, sizeof mark) == 0 ? sizeof mark : 0;
    for (; line > 1 && at < length; at++)
        line -= bytes[at] == '\n';
    return at;
}

/* Prints why a byte doesn't belong to a record. Only blanks may precede a record in its line. */
static void say_why(const struct dfu_look *look, const uint8_t *line, size_t before)
{
    uint8_t byte = line[before];
    size_t at = 0;
    while (at < before && (line[at] == ' ' || line[at] == '\t' || line[at] == '\r'))
        at++;
    if (at == before)
        fprintf(stderr, ", and a record begins with %s", look->looks == DFU_LOOKS_IHEX ? "a colon" : "S and a digit");
    else
        fputs(isxdigit(byte) ? ", behind the end of a record" : ", which is no hexadecimal digit", stderr);
}

/* Prints the first character that is invalid in an Intel HEX or S-record file, with its line and column. */
static void say_odd(const struct dfu_look *look, const uint8_t *bytes, size_t length)
{
    size_t line = line_at(bytes, length, look->line);
    fprintf(stderr, "dfu-flash: it is %s, and line %" PRIu64 ", column %" PRIu64 " is ", formats[look->looks].name, look->line,
            look->column);
    if (look->column == 0 || look->column - 1 >= length - line)
        fputs("behind its end", stderr);
    else {
        size_t before = (size_t)look->column - 1;
        uint8_t byte = bytes[line + before];
        fprintf(stderr, byte > ' ' && byte < 0x7f ? "'%c'" : "the byte %02x", byte);
        say_why(look, bytes + line, before);
    }
    fputs(": build it anew\n", stderr);
}

/* `dfu add` extracts images only from 32-bit little-endian ELF files. */
static int32_t say_foreign_elf(const char *file)
{
    fputs("dfu-flash: it is an ELF file of 64 bits or of big-endian numbers, which `dfu add` doesn't read: `objcopy -O binary ", stderr);
    say_file(file);
    fputs("OUT.bin` takes the image out of it\n", stderr);
    return IMAGE_ELF;
}

static int32_t say_format(const struct dfu_look *look, const char *file)
{
    fprintf(stderr, "dfu-flash: it is %s: `dfu add --format %s ", formats[look->looks].name, formats[look->looks].format);
    say_file(file);
    fputs("OUT.dfu` takes the image out of it\n", stderr);
    fputs("dfu-flash: for a DfuSe device give --address too, with the address that `dfu add --format auto` prints\n", stderr);
    return IMAGE_FORMAT;
}

/* Reports a file whose name belongs to a format that its bytes don't have. */
static int32_t say_named(const struct dfu_look *look, size_t length, const char *file)
{
    const char *end = strrchr(file, '.');
    say_text(stderr, "dfu-flash: its name ends in ", end != NULL ? end : file, ", but it ");
    if (look->named == DFU_NAMED_DFU) {
        fprintf(stderr, "has no DFU suffix (%s): it was cut short or changed; get it anew\n",
                length < 16 ? "it has under 16 bytes" : "the last 16 bytes are none");
        return IMAGE_CUT;
    }
    if (look->named < sizeof nameds / sizeof *nameds && nameds[look->named] != NULL)
        fprintf(stderr, "is no %s: ", nameds[look->named]);
    else
        fputs("is of another format: ", stderr);
    fputs("it was cut short or changed; build it anew\n", stderr);
    return IMAGE_NAMED;
}

int32_t looks_refuse(const struct dfu_look *look, const uint8_t *bytes, size_t length, const char *file)
{
    switch (look->looks) {
    case DFU_LOOKS_IHEX:
    case DFU_LOOKS_SREC:
        if (look->line != 0) {
            say_odd(look, bytes, length);
            return IMAGE_DAMAGED;
        }
        return say_format(look, file);
    case DFU_LOOKS_UF2: return say_format(look, file);
    case DFU_LOOKS_ELF: return is_foreign_elf(bytes, length) ? say_foreign_elf(file) : say_format(look, file);
    case DFU_LOOKS_ZIP: fputs("dfu-flash: it is a zip archive: unpack it first\n", stderr); return IMAGE_ARCHIVE;
    case DFU_LOOKS_GZIP: fputs("dfu-flash: it is a gzip archive: unpack it first\n", stderr); return IMAGE_ARCHIVE;
    case DFU_LOOKS_NAMED: return say_named(look, length, file);
    default: fputs("dfu-flash: it is text and no image: give the file that the build made\n", stderr); return IMAGE_TEXT;
    }
}
