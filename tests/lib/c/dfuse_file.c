/* Tests dfuse_file.h with a file worked out by hand, most of its refusals, and many changed files, for which it must agree with an
 * independent reader (dfuse_second.h). */
#include "dfuse_second.h"

#include <stdio.h>
#include <stdlib.h>
#include <string.h>

#define PLACES 4

static int passed, failed;

static void is(int holds, const char *what)
{
    passed += holds != 0;
    failed += holds == 0;
    if (!holds)
        printf("wrong: %s\n", what);
}

/* A file for 0483:df11 with elements 08000000h 01 02 03 04 and 08004000h 05 06 of setting 0; the last 250 bytes of the name, from offset
 * 27, are 0. */
static const char front[] = "446675536501" "33010000" "01" "546172676574" "00" "01000000" "53542e2e2e";
static const char back[] = "16000000" "02000000" "00000008" "04000000" "01020304" "00400008" "02000000" "0506"
                           "ffff" "11df" "8304" "1a01" "554644" "10" "7d8755f9";
enum { AT_BACK = 277, SIZE = 323 };

static uint8_t sound[SIZE];

static void spell(const char *digits, uint8_t *out)
{
    for (size_t at = 0; digits[2 * at] != '\0'; at++) {
        const char two[3] = {digits[2 * at], digits[2 * at + 1], '\0'};
        out[at] = (uint8_t)strtoul(two, NULL, 16);
    }
}

/* Compares the elements with those of the second reader, in the order of the file. */
static int is_same_image(const struct second *second, const struct dfuse_element *image, uint64_t count)
{
    int is_equal = count == second->count;
    for (uint64_t at = 0; is_equal && at < count; at++)
        is_equal = image[at].bytes == second->elements[at].bytes && image[at].address == second->elements[at].address
            && image[at].length == second->elements[at].length;
    return is_equal;
}

static int32_t answer_for(const struct second *second)
{
    if (second->answer != 0)
        return second->answer;
    return !second->is_there ? DFUSE_FILE_NO_SETTING : second->count > PLACES ? DFUSE_FILE_TOO_MANY_ELEMENTS : 0;
}

static void compare(const uint8_t *file, size_t length, uint8_t setting, const char *what)
{
    static struct second second;
    struct dfuse_file fields = {7, 7, 7, 7, 7};
    struct dfuse_element image[PLACES];
    uint64_t count = 77;
    int32_t answer;
    memset(&second, 0, sizeof second);
    second.answer = read_again(file, length, setting, &second);
    is(dfuse_read_file(file, length, &fields) == second.answer, what);
    if (second.answer == 0)
        is(fields.targets == second.fields.targets && fields.setting == second.fields.setting && fields.device == second.fields.device
               && fields.product == second.fields.product && fields.vendor == second.fields.vendor, what);
    else
        is(fields.targets == 7 && fields.setting == 7 && fields.device == 7 && fields.product == 7 && fields.vendor == 7, what);
    for (int at = 0; at < PLACES; at++)
        image[at] = (struct dfuse_element){.bytes = file};
    answer = dfuse_file_image(file, length, setting, image, PLACES, &count);
    is(answer == answer_for(&second), what);
    is(answer == 0 ? is_same_image(&second, image, count) : count == 77, what);
}

/* A changed byte of the file, and the expected result if the CRC is right. */
static const struct {
    size_t at;
    uint8_t byte;
    int32_t answer;
} changes[] = {
    {0, 0x44, 0}, {6, 0x43, 0}, {6, 0x44, DFUSE_FILE_BAD_SIZE}, {0, 0x64, DFUSE_FILE_NO_PREFIX}, {5, 2, DFUSE_FILE_BAD_VERSION},
    {10, 0, DFUSE_FILE_NO_TARGETS}, {10, 2, DFUSE_FILE_NO_TARGET}, {11, 0x74, DFUSE_FILE_NO_TARGET}, {17, 9, 0},
    {AT_BACK, 0x17, DFUSE_FILE_BAD_TARGET}, {AT_BACK + 4, 3, DFUSE_FILE_PAST_TARGET}, {AT_BACK + 4, 1, DFUSE_FILE_BAD_TARGET},
    {AT_BACK + 12, 0, DFUSE_FILE_EMPTY_ELEMENT}, {AT_BACK + 15, 0xff, DFUSE_FILE_PAST_TARGET}, {AT_BACK + 24, 3, DFUSE_FILE_PAST_TARGET},
    {SIZE - 10, 0x00, DFUSE_FILE_NOT_DFUSE}, {SIZE - 5, 15, DFUSE_FILE_BAD_LENGTH}, {SIZE - 8, 'u', DFUSE_FILE_NO_SIGNATURE},
};

static void try_changes(void)
{
    for (size_t at = 0; at < sizeof changes / sizeof *changes; at++) {
        uint8_t file[SIZE];
        struct dfuse_file fields;
        char what[64];
        memcpy(file, sound, SIZE);
        file[changes[at].at] = changes[at].byte;
        sign(file, SIZE);
        snprintf(what, sizeof what, "byte %zu is %02x", changes[at].at, changes[at].byte);
        is(dfuse_read_file(file, SIZE, &fields) == changes[at].answer, what);
        compare(file, SIZE, 0, what);
        file[SIZE - 1] ^= 1;
        is(changes[at].at > 300 || dfuse_read_file(file, SIZE, &fields) == DFUSE_FILE_BAD_CRC, "a wrong CRC comes before the rest");
    }
}

static void try_sound(void)
{
    struct dfuse_file fields;
    struct dfuse_element image[2] = {{.bytes = sound}, {.bytes = sound}};
    uint64_t count = 0;
    is(four(sound + SIZE - 4) == crc_of(sound, SIZE - 4), "the CRC worked out by hand");
    is(dfuse_read_file(sound, SIZE, &fields) == 0 && fields.targets == 1 && fields.setting == 0 && fields.device == 0xffff
           && fields.product == 0xdf11 && fields.vendor == 0x0483, "what it says");
    is(dfuse_file_image(sound, SIZE, 0, image, 2, &count) == 0 && count == 2, "its image");
    is(image[0].address == 0x08000000 && image[0].length == 4 && image[0].bytes == sound + 293, "the first element");
    is(image[1].address == 0x08004000 && image[1].length == 2 && image[1].bytes == sound + 305, "the second element");
    is(dfuse_file_image(sound, SIZE, 1, image, 2, &count) == DFUSE_FILE_NO_SETTING, "another setting");
    is(dfuse_file_image(sound, SIZE, 0, image, 1, &count) == DFUSE_FILE_TOO_MANY_ELEMENTS, "too few places");
    for (size_t length = 0; length < SIZE; length++)
        is(dfuse_read_file(sound, length, &fields) < 0, "a part of it");
}

/* Makes a file of up to three targets for two settings, each with up to three elements, and mostly changes up to three bytes. The file is
 * in its own block of memory, so that the sanitizer detects a read beyond its end. */
static void try_changed(void)
{
    uint8_t file[4096];
    size_t length = 11;
    uint8_t *copy;
    memcpy(file, sound, 11);
    file[10] = (uint8_t)(1 + rand() % 3);
    for (int target = 0; target < file[10]; target++) {
        size_t begin = length;
        memcpy(file + length, sound + 11, 274);
        file[begin + 6] = (uint8_t)(rand() % 2);
        file[begin + 270] = (uint8_t)(rand() % 4);
        length += 274;
        for (int element = 0; element < file[begin + 270]; element++) {
            uint8_t size = (uint8_t)(1 + rand() % 20);
            const uint8_t head[8] = {(uint8_t)rand(), (uint8_t)(rand() % 2), 0, 8, size, 0, 0, 0};
            memcpy(file + length, head, 8);
            memset(file + length + 8, rand(), size);
            length += 8 + (size_t)size;
        }
        file[begin + 266] = (uint8_t)(length - begin - 274);
    }
    memcpy(file + length, sound + SIZE - 16, 16);
    file[6] = (uint8_t)(length + (rand() % 2 == 0 ? 0 : 16));
    file[7] = (uint8_t)((length + (file[6] == (uint8_t)length ? 0 : 16)) >> 8);
    length += 16;
    for (int change = rand() % 4; change > 0; change--)
        file[rand() % 3 == 0 ? (size_t)rand() % length : 11 + 260 + (size_t)rand() % (length - 271)] = (uint8_t)rand();
    if (rand() % 10 == 0)
        length = (size_t)rand() % (length + 1);
    if (length >= 16 && rand() % 20 != 0)
        sign(file, length);
    copy = malloc(length + 1);
    if (copy == NULL)
        exit(2);
    memcpy(copy, file, length);
    compare(copy, length, (uint8_t)(rand() % 2), "a changed file");
    free(copy);
}

int main(int count, char **words)
{
    long runs = count > 1 ? atol(words[1]) : 100000;
    spell(front, sound);
    spell(back, sound + AT_BACK);
    srand(1);
    try_sound();
    try_changes();
    while (runs-- > 0)
        try_changed();
    printf("%d passed, %d failed\n", passed, failed);
    return failed != 0;
}
