/* A second reader of DfuSe files for the tests, written independently of the proved one. It does not accept files of over 16 MiB. */
#ifndef DFUSE_SECOND_H
#define DFUSE_SECOND_H

#include "dfuse_file.h"

#include <string.h>

#define MOST 4096

static inline uint32_t four(const uint8_t *bytes)
{
    return bytes[0] | (uint32_t)bytes[1] << 8 | (uint32_t)bytes[2] << 16 | (uint32_t)bytes[3] << 24;
}

static inline uint32_t crc_of(const uint8_t *bytes, size_t length)
{
    uint32_t crc = 0xffffffff;
    while (length-- > 0) {
        crc ^= *bytes++;
        for (int bit = 0; bit < 8; bit++)
            crc = (crc & 1) != 0 ? crc >> 1 ^ 0xedb88320 : crc >> 1;
    }
    return crc;
}

static inline void sign(uint8_t *file, size_t length)
{
    uint32_t crc = crc_of(file, length - 4);
    for (int byte = 0; byte < 4; byte++)
        file[length - 4 + (size_t)byte] = (uint8_t)(crc >> 8 * byte);
}

/* Result of the second reader: the answer, the fields of the file, and the elements of a setting, in the order of the file. */
struct second {
    int32_t answer;
    struct dfuse_file fields;
    int is_there;
    uint64_t count;
    struct dfuse_element elements[MOST];
};

static inline int32_t read_elements(const uint8_t *at, size_t size, uint32_t count, int is_meant, struct second *second)
{
    for (; count > 0; count--) {
        if (size < 8 || size - 8 < four(at + 4))
            return DFUSE_FILE_PAST_TARGET;
        if (four(at + 4) == 0)
            return DFUSE_FILE_EMPTY_ELEMENT;
        if (four(at) > UINT32_MAX - (four(at + 4) - 1))
            return DFUSE_FILE_PAST_THE_END;
        if (is_meant && second->count < MOST)
            second->elements[second->count++] = (struct dfuse_element){.address = four(at), .bytes = at + 8, .length = four(at + 4)};
        size -= 8 + four(at + 4);
        at += 8 + four(at + 4);
    }
    return size == 0 ? 0 : DFUSE_FILE_BAD_TARGET;
}

static inline int32_t read_targets(const uint8_t *at, size_t size, uint8_t count, uint8_t setting, struct second *second)
{
    for (int target = 0; target < count; target++) {
        int32_t answer;
        if (size < 274 || memcmp(at, "Target", 6) != 0)
            return DFUSE_FILE_NO_TARGET;
        if (size - 274 < four(at + 266))
            return DFUSE_FILE_BAD_TARGET;
        second->fields.setting = target == 0 || second->fields.setting == at[6] ? at[6] : DFUSE_SEVERAL;
        second->is_there |= at[6] == setting;
        answer = read_elements(at + 274, four(at + 266), four(at + 270), at[6] == setting, second);
        if (answer != 0)
            return answer;
        size -= 274 + four(at + 266);
        at += 274 + four(at + 266);
    }
    return size == 0 ? 0 : DFUSE_FILE_TRAILING;
}

static inline int32_t read_again(const uint8_t *file, size_t length, uint8_t setting, struct second *second)
{
    const uint8_t *last = file + length - 16;
    size_t body;
    if (length < 16)
        return DFUSE_FILE_TOO_SHORT;
    if (memcmp(last + 8, "UFD", 3) != 0)
        return DFUSE_FILE_NO_SIGNATURE;
    if (last[11] < 16 || last[11] > length)
        return DFUSE_FILE_BAD_LENGTH;
    if (last[6] != 0x1a || last[7] != 0x01)
        return DFUSE_FILE_NOT_DFUSE;
    if (four(last + 12) != crc_of(file, length - 4))
        return DFUSE_FILE_BAD_CRC;
    body = length - last[11];
    if (body < 11 || memcmp(file, "DfuSe", 5) != 0)
        return DFUSE_FILE_NO_PREFIX;
    if (file[5] != 1)
        return DFUSE_FILE_BAD_VERSION;
    if (four(file + 6) != body && four(file + 6) != length)
        return DFUSE_FILE_BAD_SIZE;
    second->fields.targets = file[10];
    second->fields.device = (uint16_t)four(last);
    second->fields.product = (uint16_t)four(last + 2);
    second->fields.vendor = (uint16_t)four(last + 4);
    return file[10] == 0 ? DFUSE_FILE_NO_TARGETS : read_targets(file + 11, body - 11, file[10], setting, second);
}

#endif
