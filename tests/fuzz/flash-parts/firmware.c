#include "firmware.h"
#include "books.h"
#include "bus.h"
#include "random.h"
#include "temper.h"
#include "usb.h"
#include "words.h"

#include <dirent.h>
#include <stdio.h>
#include <string.h>
#include <sys/stat.h>
#include <unistd.h>

#define OLD_OUT "what stood there before"
#define OTHER_NAME "other"

struct firmware firmware;

/* Returns the CRC register of a DFU file (USB DFU 1.1, appendix B). */
static uint32_t register_of(const uint8_t *bytes, uint32_t length)
{
    uint32_t state = 0xffffffff;
    for (uint32_t at = 0; at < length; at++) {
        state ^= bytes[at];
        for (int bit = 0; bit < 8; bit++)
            state = state >> 1 ^ ((state & 1) != 0 ? 0xedb88320 : 0);
    }
    return state;
}

static void write_file(const char *name, const void *bytes, size_t length)
{
    FILE *file = fopen(name, "wb");
    if (file == NULL || fwrite(bytes, 1, length, file) != length || fclose(file) != 0)
        fault("the file %s can't be made", name);
}

static void suffix(uint8_t *at, uint8_t size)
{
    const uint8_t fields[12] = {(uint8_t)firmware.release, (uint8_t)(firmware.release >> 8), (uint8_t)firmware.product,
                                (uint8_t)(firmware.product >> 8), (uint8_t)firmware.vendor, (uint8_t)(firmware.vendor >> 8),
                                chance(60) ? 0x1a : 0, 1, 'U', 'F', 'D', size};
    uint32_t value;
    any_bytes(at, size - 16u);
    memcpy(at + size - 16, fields, sizeof fields);
    value = register_of(firmware.bytes, firmware.payload + size - 4u);
    for (int byte = 0; byte < 4; byte++)
        at[size - 4 + byte] = (uint8_t)(value >> 8 * byte);
}

/* Sets the numbers of the suffix: those of the target board in one of its modes, or FFFFh for any. */
static void address(void)
{
    const struct face *face = &bus.target->faces[chance(8) ? !bus.target->mode : bus.target->mode];
    firmware.vendor = chance(6) ? 0xffff : face->vendor;
    firmware.product = chance(4) ? 0xffff : face->product;
    firmware.release = (uint16_t)(chance(3) ? face->release : 0xffff);
}

static void spoil(void)
{
    if (chance(2))
        firmware.bytes[below(firmware.length)] ^= (uint8_t)(1 << below(8));
    else
        firmware.length = below(firmware.length);
}

/* Determines the format of the file. A file without a signature is a raw image, and is sent whole. One in four raw images of over 11 bytes
 * gets the first bytes of Intel HEX, S-records, UF2 or ELF instead, and must not be sent. */
static void look(void)
{
    static const char *const fronts[] = {":0400000041", ":10FFFE00aB", "S1070000", "S9030000", "UF2\n", "\x7f" "ELF"};
    const char *front = fronts[below(sizeof fronts / sizeof fronts[0])];
    firmware.is_raw = firmware.length < 16 || memcmp(firmware.bytes + firmware.length - 8, "UFD", 3) != 0;
    firmware.is_dfuse = !firmware.is_raw && memcmp(firmware.bytes + firmware.length - 10, "\x1a\1", 2) == 0;
    firmware.has_format = firmware.is_raw && firmware.length > 11 && chance(4);
    if (firmware.has_format)
        memcpy(firmware.bytes, front, strlen(front));
    if (firmware.is_raw)
        firmware.payload = firmware.length;
}

/* Removes all files of earlier runs from the working folder. */
static void clear_folder(void)
{
    DIR *folder = opendir(".");
    for (struct dirent *one = readdir(folder); one != NULL; one = readdir(folder))
        if (strcmp(one->d_name, ".") != 0 && strcmp(one->d_name, "..") != 0)
            if (unlink(one->d_name) != 0)
                rmdir(one->d_name);
    closedir(folder);
}

static void make_out(void)
{
    firmware.out = !chance(8) ? OUT_NONE : chance(4) ? OUT_FOLDER : chance(3) ? OUT_LINK : OUT_FILE;
    if (firmware.out == OUT_FILE || firmware.out == OUT_LINK)
        write_file(firmware.out == OUT_FILE ? OUT_NAME : OTHER_NAME, OLD_OUT, strlen(OLD_OUT));
    if ((firmware.out == OUT_LINK && symlink(OTHER_NAME, OUT_NAME) != 0) || (firmware.out == OUT_FOLDER && mkdir(OUT_NAME, 0777) != 0))
        fault("OUT can't be made");
}

void firmware_make(void)
{
    uint8_t size = (uint8_t)(chance(10) ? between(16, 255) : 16);
    firmware.payload = chance(100) ? 0 : chance(4) ? between(1, MOST_FIRMWARE) : between(1, 700);
    any_bytes(firmware.bytes, firmware.payload);
    address();
    suffix(firmware.bytes + firmware.payload, size);
    firmware.length = firmware.payload + (chance(15) ? 0 : size);
    if (chance(30))
        spoil();
    look();
    clear_folder();
    write_file(FILE_NAME, firmware.bytes, firmware.length);
    make_out();
}

/* Checks that the folder holds only FILE, OUT, and the target of a link. */
static void check_folder(void)
{
    DIR *folder = opendir(".");
    for (struct dirent *one = readdir(folder); one != NULL; one = readdir(folder))
        if (strcmp(one->d_name, ".") != 0 && strcmp(one->d_name, "..") != 0 && strcmp(one->d_name, FILE_NAME) != 0
            && strcmp(one->d_name, OUT_NAME) != 0 && (firmware.out != OUT_LINK || strcmp(one->d_name, OTHER_NAME) != 0))
            fault("the file %s is left", one->d_name);
    closedir(folder);
}

static bool has(const char *name, const void *bytes, size_t length)
{
    static char found[200000];
    FILE *file = fopen(name, "rb");
    size_t count = file == NULL ? 0 : fread(found, 1, sizeof found, file);
    if (file == NULL)
        return false;
    fclose(file);
    return count == length && memcmp(found, bytes, length) == 0;
}

/* Returns true if OUT is the same file, folder or link as before the run, or still doesn't exist. */
static bool is_out_kept(void)
{
    struct stat is;
    if (lstat(OUT_NAME, &is) != 0)
        return firmware.out == OUT_NONE;
    if (firmware.out == OUT_FOLDER)
        return S_ISDIR(is.st_mode);
    if (firmware.out == OUT_LINK)
        return S_ISLNK(is.st_mode) && has(OTHER_NAME, OLD_OUT, strlen(OLD_OUT));
    return firmware.out == OUT_FILE && has(OUT_NAME, OLD_OUT, strlen(OLD_OUT));
}

void firmware_check(int status)
{
    /* With status 3 the new file may be there too, if only the report could not be printed. */
    bool may_write = asked.job == JOB_UPLOAD && !asked.is_dry && (status == 0 || status == 3)
        && (firmware.out == OUT_NONE || (firmware.out == OUT_FILE && asked.is_forced));
    bool is_written = asked.job == JOB_UPLOAD && !asked.is_dry && status == 0;
    struct stat is;
    if (!asked.is_sound)
        return;
    check_folder();
    if (!has(FILE_NAME, firmware.bytes, firmware.length))
        fault("the file was changed");
    if (!may_write && !is_out_kept())
        fault("OUT isn't what it was, and the status is %d", status);
    if (is_written && !may_write)
        fault("the status is 0, and OUT was not to be replaced");
    if (is_written && (lstat(OUT_NAME, &is) != 0 || !S_ISREG(is.st_mode)))
        fault("there is no OUT behind an upload");
}
