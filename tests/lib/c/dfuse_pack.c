/* Writes a DfuSe file (ST's UM0391) to standard output for the tests:
 *
 *     dfuse_pack [-t] [-i VID:PID] [-c] [-p N=BYTE].. [-n BYTES] SETTING:ADDRESS=FILE.. [- SETTING:ADDRESS=FILE..]..
 *
 * Each `-` begins a new target. -t: the size in the prefix includes the suffix, as in files from dfu-util's tools. -i: the device
 * (1209:0001). -p: changes the byte at offset N. -n: writes only this many bytes. The CRC is computed after both changes; -c makes it
 * wrong. A target without elements is `SETTING:`. Numbers are hexadecimal. */
#include <stdint.h>
#include <stdio.h>
#include <stdlib.h>
#include <string.h>

#define ROOM (1 << 22)

static uint8_t bytes[ROOM];
static size_t length;

static void put(const void *from, size_t count)
{
    if (count > ROOM - length)
        exit(2);
    memcpy(bytes + length, from, count);
    length += count;
}

static void set_four(size_t at, size_t number)
{
    for (int byte = 0; byte < 4; byte++)
        bytes[at + (size_t)byte] = (uint8_t)(number >> 8 * byte);
}

static void put_four(size_t number)
{
    put("\0\0\0", 4);
    set_four(length - 4, number);
}

static void put_file(const char *name)
{
    FILE *file = fopen(name, "rb");
    if (file == NULL)
        exit(2);
    length += fread(bytes + length, 1, ROOM - length, file);
    fclose(file);
}

static uint32_t crc(size_t count)
{
    uint32_t crc = 0xffffffff;
    for (size_t at = 0; at < count; at++) {
        crc ^= bytes[at];
        for (int bit = 0; bit < 8; bit++)
            crc = (crc & 1) != 0 ? crc >> 1 ^ 0xedb88320 : crc >> 1;
    }
    return crc;
}

static size_t begin_target(const char *setting)
{
    static const uint8_t name[255] = "ST...";
    uint8_t number = (uint8_t)strtoul(setting, NULL, 16);
    put("Target", 6);
    put(&number, 1);
    put_four(1);
    put(name, sizeof name);
    put_four(0);
    put_four(0);
    bytes[10]++;
    return length - 274;
}

static void put_element(const char *word)
{
    const char *address = strchr(word, ':') + 1, *file = strchr(word, '=');
    size_t at = length;
    if (file == NULL)
        return;
    put_four(strtoul(address, NULL, 16));
    put_four(0);
    put_file(file + 1);
    set_four(at + 4, length - at - 8);
}

int main(int count, char **words)
{
    unsigned vendor = 0x1209, product = 0x0001;
    int with_suffix = 0, is_spoilt = 0, at = 1;
    size_t target = 0, elements = 0, cut = 0, most = SIZE_MAX;
    uint8_t suffix[12] = {0xff, 0xff, 0, 0, 0, 0, 0x1a, 0x01, 'U', 'F', 'D', 16};
    const char *patches[16];
    int patched = 0;
    for (; at < count && words[at][0] == '-' && words[at][1] != '\0'; at++) {
        if (words[at][1] == 't')
            with_suffix = 1;
        else if (words[at][1] == 'c')
            is_spoilt = 1;
        else if (words[at][1] == 'p' && patched < 16)
            patches[patched++] = words[++at];
        else if (words[at][1] == 'n')
            most = strtoul(words[++at], NULL, 16);
        else if (words[at][1] != 'i' || sscanf(words[++at], "%4x:%4x", &vendor, &product) != 2)
            return 2;
    }
    put("DfuSe\1\0\0\0\0", 11);
    for (; at < count; at++) {
        if (words[at][0] == '-') {
            target = 0;
            continue;
        }
        if (target == 0) {
            target = begin_target(words[at]);
            elements = 0;
        }
        put_element(words[at]);
        elements += strchr(words[at], '=') != NULL;
        set_four(target + 266, length - target - 274);
        set_four(target + 270, elements);
    }
    set_four(6, length + (with_suffix ? 16 : 0));
    suffix[2] = (uint8_t)product;
    suffix[3] = (uint8_t)(product >> 8);
    suffix[4] = (uint8_t)vendor;
    suffix[5] = (uint8_t)(vendor >> 8);
    put(suffix, sizeof suffix);
    for (int patch = 0; patch < patched; patch++) {
        const char *equals = strchr(patches[patch], '=');
        cut = strtoul(patches[patch], NULL, 16);
        if (equals == NULL || cut >= length)
            return 2;
        bytes[cut] = (uint8_t)strtoul(equals + 1, NULL, 16);
    }
    put_four(crc(length) ^ (uint32_t)is_spoilt);
    length = length < most ? length : most;
    return fwrite(bytes, 1, length, stdout) == length ? 0 : 2;
}
