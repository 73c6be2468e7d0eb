/* Random settings of the stand-in's DfuSe device (tests/lib/usb/settings.c): maps, names and descriptors with random bytes, sizes, times,
 * variants of behaviour, and faults of the link and of the device. The first FIXED settings are the same in each run. */
#ifndef DFUSE_VARIED_H
#define DFUSE_VARIED_H

#include "dfuse_changed.h"

#include <stdio.h>

enum { FIXED = 5, MOST_SETTINGS = 48, SETTING_ROOM = 512 };

static const char true_maps[] = "@Internal Flash  /0x08000000/16*001Kg|@Bank 2 /0x08000000/16*001Kg";
static char settings[MOST_SETTINGS][SETTING_ROOM];
static int setting_count;
static int is_true, is_dfuse; /* is_true: the map is that of the memory; is_dfuse: the descriptor is that of a DfuSe device */

/* Adds a setting, or replaces its earlier value. */
static void set(const char *name, const char *value)
{
    size_t size = strlen(name);
    int at = 0;
    while (at < setting_count && (strncmp(settings[at], name, size) != 0 || settings[at][size] != '='))
        at++;
    if (at == MOST_SETTINGS)
        return;
    setting_count += at == setting_count;
    snprintf(settings[at], sizeof settings[0], "%s=%s", name, value);
}

static void set_number(const char *name, unsigned number)
{
    char text[16];
    snprintf(text, sizeof text, "%u", number);
    set(name, text);
}

static void set_address(const char *name)
{
    char text[16];
    snprintf(text, sizeof text, "%08x", BASE + below(SIZE));
    set(name, text);
}

static void set_fates(void)
{
    static const char *const kinds[] = {"lost-out", "lost-back", "twice", "leave", "cut", "short", "short", "mute", "deaf", "swap",
                                        "stall"};
    char text[200] = "";
    for (unsigned fate = below(4), at = below(12); fate > 0; fate--, at += 1 + below(40)) {
        unsigned kind = one_in(8) ? 10 : below(one_in(20) ? 10 : 7);
        size_t end = strlen(text);
        snprintf(text + end, sizeof text - end, kind == 5 || kind == 6 ? "%s%s %u %u" : "%s%s %u", end > 0 ? "," : "", kinds[kind], at,
                 below(7));
    }
    set("USB_FATE", text);
}

static void set_maps(void)
{
    char maps[sizeof true_maps];
    memcpy(maps, true_maps, sizeof maps);
    is_true = !one_in(8);
    if (!is_true)
        maps[below(sizeof maps - 1)] = "0189,*/@KMa eg|x"[below(17)];
    set("USB_MAPS", maps);
}

/* Sets a string of at most this many random UTF-16 code units. */
static void set_units(const char *name, const char *begin, unsigned most)
{
    char text[SETTING_ROOM - 32];
    size_t end = (size_t)snprintf(text, sizeof text, "%s", begin);
    for (unsigned unit = below(most + 1); unit > 0; unit--)
        end += (size_t)snprintf(text + end, sizeof text - end, "\\u%04x", one_in(3) ? below(65536) : 1 + below(127));
    set(name, text);
}

static void set_hexadecimal(const char *name, unsigned number)
{
    char text[16];
    snprintf(text, sizeof text, "%04x", number);
    set(name, text);
}

/* Sets the fields of the descriptors, most of them to valid values. */
static void set_descriptors(void)
{
    static const unsigned versions[] = {0x011a, 0x0110, 0x0100, 0x1a01, 0};
    unsigned version = one_in(50) ? versions[below(5)] : one_in(100) ? below(65536) : 0x011a;
    unsigned size = one_in(50) ? below(10) : 9;
    is_dfuse = version == 0x011a && size == 9;
    set_hexadecimal("USB_VERSION", version);
    set_number("USB_DESCRIPTOR", size);
    if (one_in(50))
        set_hexadecimal("USB_ATTRIBUTES", below(256));
    if (one_in(10))
        set_units("USB_SERIAL", "", 60);
    if (one_in(10))
        set_number("USB_CONFIGURATIONS", 1 + below(3));
    if (one_in(10))
        set_number("USB_INTERFACE", below(256));
    if (!one_in(20))
        return;
    is_true = 0;
    set_units("USB_MAPS", one_in(2) ? "" : one_in(2) ? "@" : "@F/0x08000000/16*001K", 60);
}

static void make_settings(void)
{
    static const char *const cells[] = {"and", "fail", "any"};
    static const unsigned transfers[] = {2048, 1024, 512, 100, 64, 2048};
    setting_count = FIXED;
    set_maps();
    set_fates();
    set_number("USB_TRANSFER", transfers[below(6)]);
    set("USB_CELLS", cells[below(3)]);
    set_number("USB_BUSY", below(3));
    set_number("USB_ERASE", below(3));
    set_number("USB_AWAY", below(3));
    set("USB_TOLD", one_in(4) ? "nothing" : "all");
    set("USB_EARLY", one_in(4) ? "stall" : "busy");
    set("USB_POINTER", one_in(4) ? "erase" : "set");
    if (one_in(30))
        set_number("USB_SAID", below(5000));
    if (one_in(5)) {
        set_number("USB_FAILS", below(40));
        set_number("USB_CODE", below(16));
    }
    if (one_in(40))
        set_number("USB_PROTECTED", 1);
    if (one_in(5))
        set_address("USB_PENDING");
    if (one_in(6))
        set_address("USB_LIES");
    set_descriptors();
}

#endif
