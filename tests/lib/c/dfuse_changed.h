/* Random DfuSe files for the tests: some are valid, and some are changed or truncated. */
#ifndef DFUSE_CHANGED_H
#define DFUSE_CHANGED_H

#include "dfuse_second.h"

#include <stdlib.h>

/* The memory for which the files are made, and the file itself. */
#define BASE 0x08000000u
enum { SIZE = 16384, ROOM = 32768 };
static uint8_t file[ROOM];
static size_t length;

static unsigned below(unsigned most)
{
    return (unsigned)rand() % most;
}

static int one_in(unsigned most)
{
    return below(most) == 0;
}

static void put(const void *from, size_t count)
{
    memcpy(file + length, from, count);
    length += count;
}

static void put_four(size_t at, size_t number)
{
    for (size_t byte = 0; byte < 4; byte++)
        file[at + byte] = (uint8_t)(number >> 8 * byte);
}

/* Adds an element: mostly after the previous one, sometimes overlapping another, sometimes outside the memory. */
static void put_element(uint32_t *next)
{
    uint32_t size = 1 + below(one_in(3) ? 1500 : 40);
    uint32_t address = one_in(12) ? BASE + below(SIZE + 100) : *next + below(700);
    put_four(length, one_in(60) ? (uint32_t)rand() * 2 : address);
    put_four(length + 4, size);
    length += 8;
    for (uint32_t at = 0; at < size; at++)
        file[length++] = (uint8_t)(one_in(4) ? 0xff : rand());
    *next = address + size;
}

static void put_target(uint32_t *next)
{
    size_t begin = length;
    unsigned elements = one_in(20) ? 0 : 1 + below(4);
    memset(file + length, 0, 274);
    put("Target", 6);
    file[length] = (uint8_t)(one_in(6) ? below(3) : 0);
    length = begin + 274;
    for (unsigned at = 0; at < elements; at++)
        put_element(next);
    put_four(begin + 266, length - begin - 274);
    put_four(begin + 270, elements);
}

static void make_file(void)
{
    static const uint8_t suffix[16] = {0xff, 0xff, 0x01, 0x00, 0x09, 0x12, 0x1a, 0x01, 'U', 'F', 'D', 16};
    uint32_t next = BASE + below(3) * 700;
    length = 0;
    put("DfuSe\1\0\0\0\0", 11);
    file[10] = (uint8_t)(one_in(4) ? 2 + below(2) : 1);
    for (uint8_t target = 0; target < file[10]; target++)
        put_target(&next);
    put_four(6, length + (one_in(2) ? 16 : 0));
    put(suffix, sizeof suffix);
    for (unsigned change = one_in(2) ? 0 : below(4); change > 0; change--)
        file[one_in(2) ? below((unsigned)length) : one_in(2) ? below(300) : (unsigned)length - 1 - below(40)] = (uint8_t)rand();
    length = one_in(40) ? below((unsigned)length) : length;
    if (length >= 16 && !one_in(15))
        sign(file, length);
}

#endif
