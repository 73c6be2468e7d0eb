/* Tests dfu_image.h with rows worked out by hand: the format of files without a suffix, the format of names, and the first byte that can't
 * be part of a record. Each file is at the end of its block of memory, and the result is filled with FFh before. */
#include <stdio.h>
#include <stdlib.h>
#include <string.h>

#include "dfu_image.h"

static long passed, failed;

struct row {
    const char *name, *file; /* the file's name, and its bytes */
    size_t length;
    uint32_t looks, named;
    uint64_t line, column;
};
#define FILE_OF(name, bytes, looks, named, line, column) \
    { \
        name, bytes, sizeof(bytes) - 1, looks, named, line, column \
    }
#define PLAIN(bytes, looks) FILE_OF("a", bytes, looks, DFU_NAMED_NONE, 0, 0)
#define NAMED(name, named) FILE_OF(name, "\0", DFU_LOOKS_NAMED, named, 0, 0)
#define PLACED(bytes, looks, line, column) FILE_OF("a", bytes, looks, DFU_NAMED_NONE, line, column)
#define MARK "\xef\xbb\xbf" /* a byte order mark */

static const struct row rows[] = {
    /* These files may be raw images. */
    PLAIN("", DFU_LOOKS_RAW),
    PLAIN("\0\x20\0\x20", DFU_LOOKS_RAW),
    PLAIN("hello\0", DFU_LOOKS_RAW),
    PLAIN("hello\x7f", DFU_LOOKS_RAW),
    PLAIN("hello\x1b", DFU_LOOKS_RAW),
    /* Intel HEX: after a byte order mark, blanks and empty lines the file has a colon and two digits, or a colon in a file that is all
     * text. */
    PLAIN(":00000001FF\n", DFU_LOOKS_IHEX),
    PLAIN(":00000001ff\r\n", DFU_LOOKS_IHEX),
    PLAIN(MARK ":00000001FF\n", DFU_LOOKS_IHEX),
    PLAIN("\n\r\n \t:00000001FF\n", DFU_LOOKS_IHEX),
    PLAIN(MARK "\n:00000001FF\n", DFU_LOOKS_IHEX),
    PLAIN(":", DFU_LOOKS_IHEX),
    PLACED(":10O0000011\n", DFU_LOOKS_IHEX, 1, 4),
    PLACED(":O0\n", DFU_LOOKS_IHEX, 1, 2),
    PLACED(MARK ":10O0\n", DFU_LOOKS_IHEX, 1, 4),
    PLACED(":00\n\n  :0g\n", DFU_LOOKS_IHEX, 3, 5),
    PLACED(":00 \t\n:00 0\n", DFU_LOOKS_IHEX, 2, 5),
    PLACED(":00\nS9030000FC\n", DFU_LOOKS_IHEX, 2, 1),
    PLACED(":00\0", DFU_LOOKS_IHEX, 1, 4),
    PLACED(":00\x0c", DFU_LOOKS_IHEX, 1, 4),
    PLACED(":00\n" MARK, DFU_LOOKS_IHEX, 2, 1),
    PLAIN(":0g\0", DFU_LOOKS_RAW),
    PLAIN(":\xff\xff", DFU_LOOKS_RAW),
    PLAIN(":0\0", DFU_LOOKS_RAW),
    PLAIN("\0:00", DFU_LOOKS_RAW),
    /* S-records: S, a digit, and two hexadecimal digits. */
    PLAIN("S9030000FC\n", DFU_LOOKS_SREC),
    PLAIN(MARK " \nS0aF\r\n", DFU_LOOKS_SREC),
    PLACED("S1130\0", DFU_LOOKS_SREC, 1, 6),
    PLACED("S903\n:00\n", DFU_LOOKS_SREC, 2, 1),
    PLAIN("S1O6\0", DFU_LOOKS_RAW),
    PLAIN("SA06\0", DFU_LOOKS_RAW),
    PLAIN("s903\0", DFU_LOOKS_RAW),
    PLAIN("S1O6\n", DFU_LOOKS_TEXT),
    /* Formats that are recognized by their first bytes. */
    PLAIN("UF2\nWQ]\x9e", DFU_LOOKS_UF2),
    PLAIN("UF2 \0", DFU_LOOKS_RAW),
    PLAIN("\x7f"
          "ELF\x01",
          DFU_LOOKS_ELF),
    PLAIN("\x7f"
          "EL",
          DFU_LOOKS_RAW),
    PLAIN("DfuSe\x01", DFU_LOOKS_DFUSE),
    PLAIN("DfuS\0", DFU_LOOKS_RAW),
    PLAIN("PK\x03\x04\x14", DFU_LOOKS_ZIP),
    PLAIN("PK\x05\x06", DFU_LOOKS_RAW),
    PLAIN("\x1f\x8b\x08", DFU_LOOKS_GZIP),
    PLAIN("\x1f", DFU_LOOKS_RAW),
    /* Text is UTF-8, and its control characters are tab, line feed, form feed and carriage return. */
    PLAIN("hello\tworld\x0c\r\n", DFU_LOOKS_TEXT),
    PLAIN(MARK, DFU_LOOKS_TEXT),
    PLAIN("gr\xc3\xbc\xc3\x9f \xe2\x82\xac \xf0\x9f\x98\x80\n", DFU_LOOKS_TEXT),
    PLAIN("a\x80", DFU_LOOKS_RAW),
    PLAIN("a\xc3", DFU_LOOKS_RAW),
    PLAIN("\xc0\xaf", DFU_LOOKS_RAW),
    PLAIN("\xed\xa0\x80", DFU_LOOKS_RAW),
    PLAIN("\xf4\x90\x80\x80", DFU_LOOKS_RAW),
    /* Names, in upper and lower case. */
    NAMED("a.dfu", DFU_NAMED_DFU),
    NAMED("a/b.DFU", DFU_NAMED_DFU),
    NAMED("a.hex", DFU_NAMED_IHEX),
    NAMED("a.Hex", DFU_NAMED_IHEX),
    NAMED(".hex", DFU_NAMED_IHEX),
    NAMED("a.iHEX", DFU_NAMED_IHEX),
    NAMED("a.Ihx", DFU_NAMED_IHEX),
    NAMED("a.mCs", DFU_NAMED_IHEX),
    NAMED("a.S19", DFU_NAMED_SREC),
    NAMED("a.s28", DFU_NAMED_SREC),
    NAMED("a.S37", DFU_NAMED_SREC),
    NAMED("a.sRec", DFU_NAMED_SREC),
    NAMED("a.MOT", DFU_NAMED_SREC),
    NAMED("a.uF2", DFU_NAMED_UF2),
    NAMED("a.Elf", DFU_NAMED_ELF),
    NAMED("a.axF", DFU_NAMED_ELF),
    FILE_OF("a.hex", "", DFU_LOOKS_NAMED, DFU_NAMED_IHEX, 0, 0),
    FILE_OF("", "\0", DFU_LOOKS_RAW, DFU_NAMED_NONE, 0, 0),
    FILE_OF("hex", "\0", DFU_LOOKS_RAW, DFU_NAMED_NONE, 0, 0),
    FILE_OF("a.hex/b.bin", "\0", DFU_LOOKS_RAW, DFU_NAMED_NONE, 0, 0),
    FILE_OF("a.hexa", "\0", DFU_LOOKS_RAW, DFU_NAMED_NONE, 0, 0),
    FILE_OF("a.s\x11"
            "9",
            "\0", DFU_LOOKS_RAW, DFU_NAMED_NONE, 0, 0),
    /* The bytes decide the format, and the format of the name is returned too. */
    FILE_OF("a.dfu", "hello\n", DFU_LOOKS_TEXT, DFU_NAMED_DFU, 0, 0),
    FILE_OF("a.dfu", ":0O", DFU_LOOKS_IHEX, DFU_NAMED_DFU, 1, 3),
    FILE_OF("a.elf", "S903\n", DFU_LOOKS_SREC, DFU_NAMED_ELF, 0, 0),
    FILE_OF("a.hex",
            "\x7f"
            "ELF",
            DFU_LOOKS_ELF, DFU_NAMED_IHEX, 0, 0),
    FILE_OF("a.uf2", "DfuSe", DFU_LOOKS_DFUSE, DFU_NAMED_UF2, 0, 0),
};

/* Copies bytes to the end of a block of memory, so that a sanitizer detects a read beyond them. */
static uint8_t *copy_of(const char *bytes, size_t length)
{
    uint8_t *copy = malloc(length + 1);
    if (copy == NULL)
        exit(2);
    memcpy(copy + 1, bytes, length);
    return copy;
}

static void look(const struct row *row)
{
    struct dfu_look look;
    uint8_t *file = copy_of(row->file, row->length);
    uint8_t *name = copy_of(row->name, strlen(row->name));
    uint32_t looks;
    memset(&look, 0xff, sizeof look);
    looks = dfu_image_look(file + 1, row->length, name + 1, strlen(row->name), &look);
    if (looks == row->looks && look.looks == row->looks && look.named == row->named && look.line == row->line
        && look.column == row->column) {
        passed++;
    } else {
        failed++;
        printf("looks: row %d (%s): %u, %u, %u at %llu:%llu, wanted %u, %u at %llu:%llu\n", (int)(row - rows), row->name, (unsigned)looks,
               (unsigned)look.looks, (unsigned)look.named, (unsigned long long)look.line, (unsigned long long)look.column,
               (unsigned)row->looks, (unsigned)row->named, (unsigned long long)row->line, (unsigned long long)row->column);
    }
    free(file);
    free(name);
}

int main(void)
{
    for (size_t at = 0; at < sizeof rows / sizeof rows[0]; at++)
        look(&rows[at]);
    printf("looks: %ld passed, %ld failed\n", passed, failed);
    return failed != 0;
}
