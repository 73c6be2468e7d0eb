/* Tests dfu_image_take.h with rows worked out by hand: the images of files, and each refusal. Each file, room and memory ends where its
 * length says, room and result are filled with FFh before, and one byte less of room must be too little. */
#include <stdio.h>
#include <stdlib.h>
#include <string.h>

#include "dfu_image_take.h"

static long passed, failed;

static void check(int holds, const char *what)
{
    if (holds) {
        passed++;
    } else {
        failed++;
        printf("take: %s\n", what);
    }
}

static void *of_size(size_t size)
{
    void *made = malloc(size != 0 ? size : 1);
    if (made == NULL)
        exit(2);
    memset(made, 0xff, size != 0 ? size : 1);
    return made;
}

enum { WORDS = 40000, ROOM = 64 };

struct row {
    const char *what, *file;
    size_t length;
    uint32_t format, fill;
    int32_t result;
    uint32_t address;
    const char *image; /* expected image, or NULL */
    size_t count;
    uint64_t from, to;
};
#define IHEX DFU_LOOKS_IHEX
#define NONE DFU_FILL_NONE
#define END ":00000001FF\n"
#define TAKEN(what, file, format, fill, address, image) \
    { \
        what, file, sizeof(file) - 1, format, fill, 0, address, image, sizeof(image) - 1, 0, 0 \
    }
#define REFUSED(what, file, format, fill, result, from, to) \
    { \
        what, file, sizeof(file) - 1, format, fill, result, 0, NULL, 0, from, to \
    }
/* Bytes of a UF2 file with one block, without a family, and with one byte of data for address 08000000h; and of an ELF file with one
 * segment. */
#define ZEROS_8 "\0\0\0\0\0\0\0\0"
#define ZEROS_64 ZEROS_8 ZEROS_8 ZEROS_8 ZEROS_8 ZEROS_8 ZEROS_8 ZEROS_8 ZEROS_8
#define ZEROS_475 ZEROS_64 ZEROS_64 ZEROS_64 ZEROS_64 ZEROS_64 ZEROS_64 ZEROS_64 ZEROS_8 ZEROS_8 ZEROS_8 "\0\0\0"
#define UF2(flags, number, byte) \
    "UF2\n\x57\x51\x5d\x9e" flags "\0\0\0\x08\1\0\0\0" number "\1\0\0\0\0\0\0\0" byte ZEROS_475 "\x30\x6f\xb1\x0a"
#define ELF(count) \
    "\177ELF\1\1\1\0\0\0\0\0\0\0\0\0\2\0\50\0\1\0\0\0\0\0\0\0\64\0\0\0" ZEROS_8 \
    "\64\0\40\0\1\0\0\0\0\0\0\0" \
    "\1\0\0\0\124\0\0\0\0\0\0\40\0\0\0\10" count "\0\0\0\3\0\0\0\5\0\0\0\4\0\0\0abc"

static const struct row rows[] = {
    TAKEN("one record", ":0300000041424337\n" END, IHEX, NONE, 0, "ABC"),
    TAKEN("two that touch, the second first", ":0100010042BC\n:0100000041BE\n" END, IHEX, NONE, 0, "AB"),
    TAKEN("an upper half", ":020000040800F2\n:0200100041426B\n" END, IHEX, NONE, 0x08000010, "AB"),
    TAKEN("a gap that is filled", ":0100000041BE\n:0100030042BA\n" END, IHEX, 0xff, 0, "A\377\377B"),
    TAKEN("a byte order mark, blanks, lower case", "\xef\xbb\xbf  :0100000041be \r\n\n:00000001ff", IHEX, 0, 0, "A"),
    TAKEN("S-records", "S00600004844521B\nS1050000414277\nS9030000FC\n", DFU_LOOKS_SREC, NONE, 0, "AB"),
    TAKEN("a block of UF2", UF2("\0\0\0\0", "\0\0\0\0", "A"), DFU_LOOKS_UF2, NONE, 0x08000000, "A"),
    TAKEN("a segment of ELF", ELF("\3"), DFU_LOOKS_ELF, NONE, 0x08000000, "abc"),
    REFUSED("no mark", "0100000041BE\n" END, IHEX, NONE, DFU_TAKE_NO_MARK, 1, 0),
    REFUSED("the letter O", ":0100000041BE\n:01OO010042BC\n" END, IHEX, NONE, DFU_TAKE_BAD_DIGIT, 2, 0),
    REFUSED("a shorter record", ":0200000041BD\n" END, IHEX, NONE, DFU_TAKE_BAD_LENGTH, 1, 0),
    REFUSED("a wrong sum", ":0100000041BF\n" END, IHEX, NONE, DFU_TAKE_BAD_CHECKSUM, 1, 0),
    REFUSED("an unknown type", ":00000006FA\n" END, IHEX, NONE, DFU_TAKE_BAD_TYPE, 1, 0),
    REFUSED("a wrong count", "S1050000414277\nS5030002FA\nS9030000FC\n", DFU_LOOKS_SREC, NONE, DFU_TAKE_BAD_COUNT, 2, 0),
    REFUSED("past the last address", ":02000004FFFFFC\n:02FFFF0041427D\n" END, IHEX, NONE, DFU_TAKE_PAST_SEGMENT, 2, 0),
    REFUSED("behind the end", END ":0100000041BE\n", IHEX, NONE, DFU_TAKE_TRAILING, 2, 0),
    REFUSED("no end", ":0100000041BE\n", IHEX, NONE, DFU_TAKE_NO_END, 0, 0),
    REFUSED("no blocks", "UF2\n", DFU_LOOKS_UF2, NONE, DFU_TAKE_BAD_SIZE, 0, 0),
    REFUSED("another number", UF2("\0\0\0\0", "\1\0\0\0", "A"), DFU_LOOKS_UF2, NONE, DFU_TAKE_BAD_NUMBER, 0, 0),
    REFUSED("for a file", UF2("\0\x10\0\0", "\0\0\0\0", "A"), DFU_LOOKS_UF2, NONE, DFU_TAKE_FILE_CONTAINER, 0, 0),
    REFUSED("not for flash", UF2("\1\0\0\0", "\0\0\0\0", "A"), DFU_LOOKS_UF2, NONE, DFU_TAKE_NO_DATA, 0, 0),
    REFUSED("no header", "\177ELF\2", DFU_LOOKS_ELF, NONE, DFU_TAKE_NOT_ELF, 0, 0),
    REFUSED("a cut segment", ELF("\4"), DFU_LOOKS_ELF, NONE, DFU_TAKE_CUT_SEGMENT, 0, 0),
    REFUSED("an end alone", END, IHEX, NONE, DFU_TAKE_NO_DATA, 0, 0),
    REFUSED("two bytes at an address", ":0200000041427B\n:0100010043BB\n" END, IHEX, 0, DFU_TAKE_OVERLAPS, 1, 0),
    REFUSED("a gap", ":0100000041BE\n:0100030042BA\n" END, IHEX, NONE, DFU_TAKE_GAP, 1, 3),
    REFUSED("a gap of 128 MiB", ":0100000041BE\n:020000040800F2\n:0100000042BD\n" END, IHEX, 0xff, DFU_TAKE_TOO_LARGE_FILLED, 0, 0),
    REFUSED("no file of HEX", "", IHEX, NONE, DFU_TAKE_NO_END, 0, 0),
};

/* Returns 1 if all bytes of a room from an offset on are FFh. */
static int are_ones(const uint8_t *room, size_t from, size_t size)
{
    while (from < size)
        if (room[from++] != 0xff)
            return 0;
    return 1;
}

static void taken_with(const struct row *row, size_t size, size_t words, int32_t result)
{
    uint8_t *file = of_size(row->length), *room = of_size(size);
    uint64_t *memory = of_size(8 * words);
    struct dfu_taken *taken = of_size(sizeof *taken);
    int is_laid = result == 0, says = result == 0 || result == DFU_TAKE_NO_ROOM;
    memcpy(file, row->file, row->length);
    check(dfu_image_take(file, row->length, row->format, row->fill, room, size, taken, memory, words) == result, row->what);
    if (words >= 3) {
        check(taken->length == (says ? row->count : 0) && taken->address == (says ? row->address : 0), row->what);
        check(result == DFU_TAKE_NO_MEMORY || (taken->from == row->from && taken->to == row->to), row->what);
    } else {
        check(are_ones((uint8_t *)taken, 0, sizeof *taken), row->what);
    }
    check(!is_laid || memcmp(room, row->image, row->count) == 0, row->what);
    check(are_ones(room, is_laid ? row->count : 0, size), row->what);
    free(file);
    free(room);
    free(memory);
    free(taken);
}

/* Tries each number of words. The result is that of the row, or DFU_TAKE_NO_MEMORY if there are too few words. More words than the smallest
 * number that is enough change nothing. */
static void with_less_memory(const struct row *row)
{
    int is_enough = 0;
    for (size_t words = 0; words < 300; words++) {
        uint8_t *room = of_size(ROOM);
        uint64_t *memory = of_size(8 * words);
        struct dfu_taken taken;
        int32_t result;
        memset(&taken, 0xff, sizeof taken);
        result = dfu_image_take((const uint8_t *)row->file, row->length, row->format, row->fill, room, ROOM, &taken, memory, words);
        check(result == row->result || (!is_enough && result == DFU_TAKE_NO_MEMORY), row->what);
        check(result == 0 || are_ones(room, 0, ROOM), row->what);
        is_enough = is_enough || result == row->result;
        free(room);
        free(memory);
    }
    check(is_enough || row->result == DFU_TAKE_TOO_LARGE_FILLED, row->what);
}

/* Reads the largest image, from records of 255 bytes, with as much memory as the header states. */
static void largest(void)
{
    enum { MOST = 16777216, COUNT = 255 };
    size_t words = (4 * (size_t)MOST + 200000) / 8, at = 0;
    char *text = of_size((size_t)MOST * 3);
    uint8_t *room = of_size(MOST);
    uint64_t *memory = of_size(8 * words);
    struct dfu_taken taken;
    for (uint32_t address = 0, upper = 1; address < MOST;) {
        uint32_t count = MOST - address < COUNT ? MOST - address : COUNT, left = 65536 - address % 65536, sum;
        count = left < count ? left : count;
        if (address >> 16 != upper) {
            upper = address >> 16;
            at += (size_t)sprintf(text + at, ":02000004%04X%02X\n", (unsigned)upper, (unsigned)(-(6 + upper + (upper >> 8)) & 255));
        }
        sum = count + (address >> 8 & 255) + (address & 255);
        at += (size_t)sprintf(text + at, ":%02X%04X00", (unsigned)count, (unsigned)(address & 65535));
        for (uint32_t byte = 0; byte < count; byte++, address++) {
            at += (size_t)sprintf(text + at, "%02X", (unsigned)((address ^ address >> 8) & 255));
            sum += (address ^ address >> 8) & 255;
        }
        at += (size_t)sprintf(text + at, "%02X\n", (unsigned)(-sum & 255));
    }
    at += (size_t)sprintf(text + at, END);
    check(dfu_image_take((uint8_t *)text, at, IHEX, NONE, room, MOST, &taken, memory, words) == 0, "the largest image");
    check(taken.length == MOST && taken.address == 0, "its length");
    for (uint32_t byte = 0; byte < MOST; byte++)
        if (room[byte] != ((byte ^ byte >> 8) & 255)) {
            check(0, "its bytes");
            break;
        }
    free(text);
    free(room);
    free(memory);
}

/* Reads a file of `count` parts of one byte each: 1,024 are allowed, one more is refused. */
static void many_parts(uint32_t count, int32_t result)
{
    size_t words = (4 * 2 * (size_t)count + 200000) / 8, at = 0;
    char *text = of_size(20 * (size_t)count + 20);
    uint8_t *room = of_size(2 * (size_t)count);
    uint64_t *memory = of_size(8 * words);
    struct dfu_taken taken;
    for (uint32_t part = 0; part < count; part++) {
        uint32_t address = 2 * (count - 1 - part), sum = 1 + (address >> 8) + (address & 255) + 65;
        at += (size_t)sprintf(text + at, ":01%04X0041%02X\n", (unsigned)address, (unsigned)(-sum & 255));
    }
    at += (size_t)sprintf(text + at, END);
    check(dfu_image_take((uint8_t *)text, at, IHEX, 0, room, 2 * (size_t)count, &taken, memory, words) == result, "many parts");
    check(taken.length == (result == 0 ? 2 * count - 1 : 0) && taken.from == (result == 0 ? 0 : count), "what is said of many parts");
    free(text);
    free(room);
    free(memory);
}

int main(void)
{
    check(dfu_image_version() == DFU_VERSION, "the version");
    for (size_t at = 0; at < sizeof rows / sizeof rows[0]; at++) {
        const struct row *row = &rows[at];
        taken_with(row, ROOM, WORDS, row->result);
        if (row->result == 0) {
            taken_with(row, row->count, WORDS, 0);
            taken_with(row, row->count - 1, WORDS, DFU_TAKE_NO_ROOM);
        }
        for (size_t words = 0; words < 3; words++)
            taken_with(row, ROOM, words, DFU_TAKE_NO_MEMORY);
        if (row->result != DFU_TAKE_TOO_LARGE_FILLED)
            with_less_memory(row);
    }
    for (uint32_t format = 0; format < 300; format++)
        if (format < DFU_LOOKS_IHEX || format > DFU_LOOKS_ELF) {
            struct dfu_taken taken;
            uint64_t memory[8];
            uint8_t room[1] = {7};
            memset(&taken, 0xff, sizeof taken);
            check(dfu_image_take((const uint8_t *)"", 0, format, 0, room, 1, &taken, memory, 8) == DFU_TAKE_NO_FORMAT, "no format");
            check(room[0] == 7 && are_ones((uint8_t *)&taken, 0, sizeof taken), "no format changes nothing");
        }
    many_parts(1024, 0);
    many_parts(1025, DFU_TAKE_TOO_MANY_ELEMENTS);
    largest();
    printf("take: %ld passed, %ld failed\n", passed, failed);
    return failed != 0;
}
