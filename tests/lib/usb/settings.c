/* Reads the settings of the stand-in, which settings.h lists. */
#include "settings.h"
#include "fates.h"

#include <stdarg.h>
#include <stdio.h>
#include <stdlib.h>
#include <string.h>

struct settings settings;

void fail_loudly(const char *format, ...)
{
    va_list rest;
    va_start(rest, format);
    fputs("stand-in for libusb: ", stderr);
    vfprintf(stderr, format, rest);
    fputc('\n', stderr);
    va_end(rest);
    abort();
}

/* Returns a copy of a variable's text, or NULL if it isn't set. A copy is needed because a C library may free the text when the variable is
 * set again. */
static const char *kept(const char *name)
{
    const char *text = getenv(name);
    char *copy = text == NULL ? NULL : strdup(text);
    if (text != NULL && copy == NULL)
        fail_loudly("no memory for a text");
    return copy;
}

static uint32_t number(const char *name, uint32_t otherwise, int base)
{
    const char *text = getenv(name);
    if (text == NULL)
        return otherwise;
    char *end;
    unsigned long found = strtoul(text, &end, base);
    if (*text == '\0' || *end != '\0' || found > UINT32_MAX)
        fail_loudly("%s is no number: %s", name, text);
    return (uint32_t)found;
}

static const char *text(const char *name, const char *otherwise)
{
    const char *found = kept(name);
    return found != NULL ? found : otherwise;
}

/* Returns true if the variable's value is `first`, and false if it is `second`. Any other value ends the program. */
static bool is_first(const char *name, const char *first, const char *second, const char *otherwise)
{
    const char *found = text(name, otherwise);
    if (strcmp(found, first) != 0 && strcmp(found, second) != 0)
        fail_loudly("%s is %s or %s, not %s", name, first, second, found);
    return strcmp(found, first) == 0;
}

/* Returns the index of the variable's value in `words`; 0 without the variable. */
static int which(const char *name, const char *const words[4])
{
    const char *found = text(name, words[0]);
    for (int at = 0; at < 4 && words[at] != NULL; at++)
        if (strcmp(found, words[at]) == 0)
            return at;
    fail_loudly("%s is no word that is known: %s", name, found);
}

static struct ids ids(const char *name, const char *otherwise)
{
    unsigned vendor, product, release;
    if (sscanf(text(name, otherwise), "%4x:%4x:%4x", &vendor, &product, &release) != 3)
        fail_loudly("%s is vendor:product:release", name);
    return (struct ids){(uint16_t)vendor, (uint16_t)product, (uint16_t)release};
}

static void read_path(const char *path)
{
    unsigned bus = 0, port = 0;
    int used = 0;
    if (sscanf(path, "%u%n", &bus, &used) != 1 || (path[used] != '\0' && path[used] != '-'))
        fail_loudly("USB_PATH is bus-port.port: %s", path);
    settings.bus = (uint8_t)bus;
    if (path[used] == '\0')
        return;
    path++;
    for (path += used; settings.port_count < PORTS && sscanf(path, "%u%n", &port, &used) == 1; path += used + (path[used] == '.'))
        settings.ports[settings.port_count++] = (uint8_t)port;
    if (settings.port_count == 0 || *path != '\0')
        fail_loudly("USB_PATH has no port, or over %d", PORTS);
}

static void read_app(void)
{
    int has = which("USB_APP", (const char *const[4]){"dfu", "plain", "none"});
    int stalls = which("USB_APP_STALLS", (const char *const[4]){"nothing", "status", "all"});
    settings.app_has_dfu = has == 0;
    settings.app_has_usb = has < 2;
    settings.app_stalls_status = stalls > 0;
    settings.app_stalls_all = stalls == 2;
    settings.app_attributes = (uint8_t)number("USB_APP_ATTRIBUTES", settings.attributes, 16);
    settings.app_descriptor = (uint8_t)number("USB_APP_DESCRIPTOR", settings.descriptor, 10);
    settings.said = (uint16_t)number("USB_SAID", settings.transfer, 10);
    settings.app_transfer = (uint16_t)number("USB_APP_TRANSFER", settings.said, 10);
    settings.app_protocol = (uint8_t)number("USB_APP_PROTOCOL", 1, 10);
    settings.starts_in_app = is_first("USB_START", "app", "dfu", "dfu");
}

static void read_device(void)
{
    static const char *const devices[4] = {"proved", "uboot", "small", "dfuse"};
    int kind = which("USB_DEVICE", devices);
    bool is_proved = kind == 0;
    settings.device = devices[kind];
    settings.restarts_in_app = is_first("USB_RESTARTS", "app", "dfu", "app");
    settings.detaches_ms = number("USB_LEAVES", 0, 10);
    settings.attributes = (uint8_t)number("USB_ATTRIBUTES", is_proved ? 0x07 : kind == 1 ? 0x0f : kind == 2 ? 0x09 : 0x0b, 16);
    settings.transfer = (uint16_t)number("USB_TRANSFER", kind == 1 ? 4096 : kind == 3 ? 2048 : 8, 10);
    settings.detach_ms = (uint16_t)number("USB_DETACH", is_proved ? 1000 : 0, 10);
    settings.busy_ms = number("USB_BUSY", is_proved ? 1 : 0, 10);
    settings.manifest_ms = number("USB_MANIFEST", is_proved ? 1 : 0, 10);
    settings.least = number("USB_LEAST", 1, 10);
    settings.capacity = number("USB_CAPACITY", 100000, 10);
    settings.image = kept("USB_IMAGE");
    settings.buffer = number("USB_BUFFER", 8388608, 10);
    settings.is_raw = is_first("USB_STORE", "raw", "file", "file");
    settings.fails = (int)number("USB_FAILS", (uint32_t)-1, 10);
    settings.flush_fails = is_first("USB_FLUSH", "fails", "works", "works");
    settings.version = (uint16_t)number("USB_VERSION", kind == 3 ? 0x011a : 0x0110, 16);
}

/* Returns a copy of the first of the settings' names, which are separated by |. */
static const char *first_of(const char *names)
{
    char *first = strdup(names);
    if (first == NULL)
        fail_loudly("no memory for a map");
    first[strcspn(first, "|")] = '\0';
    return first;
}

static void read_dfuse(void)
{
    bool is_dfuse = strcmp(settings.device, "dfuse") == 0;
    settings.maps = text("USB_MAPS", is_dfuse ? "@Internal Flash  /0x08000000/16*001Kg" : NULL);
    settings.pages = is_dfuse ? text("USB_PAGES", first_of(settings.maps)) : NULL;
    settings.erase_ms = number("USB_ERASE", 0, 10);
    settings.tells_times = !is_first("USB_TOLD", "nothing", "all", "all");
    settings.stalls_early = is_first("USB_EARLY", "stall", "busy", "busy");
    settings.cells = which("USB_CELLS", (const char *const[4]){"and", "fail", "any"});
    settings.fail_code = (int)number("USB_CODE", 3, 10);
    settings.erase_sets_pointer = is_first("USB_POINTER", "erase", "set", "set");
    settings.is_protected = number("USB_PROTECTED", 0, 10) != 0;
    settings.pending = number("USB_PENDING", 0, 16);
    settings.lies = number("USB_LIES", 0, 16);
}

/* Counts the settings of USB_MAPS, each of which has a name. */
static unsigned count_maps(void)
{
    unsigned count = settings.maps != NULL;
    for (const char *at = settings.maps; at != NULL && *at != '\0'; at++)
        count += *at == '|';
    return count;
}

void settings_read(void)
{
    settings = (struct settings){0};
    read_device();
    settings.app = ids("USB_IDS", "1209:0001:0100");
    settings.dfu = ids("USB_DFU_IDS", text("USB_IDS", "1209:0001:0100"));
    settings.swapped = ids("USB_SWAP_IDS", text("USB_DFU_IDS", text("USB_IDS", "1209:0001:0100")));
    settings.serial = text("USB_SERIAL", "F1");
    read_path(text("USB_PATH", "1-1"));
    settings.resets_nothing = is_first("USB_RESETS", "nothing", "works", "works");
    settings.leaves_untold = is_first("USB_LEFT", "untold", "told", "told");
    settings.pull = (unsigned)number("USB_PULL", 0, 10);
    settings.devices = number("USB_DEVICES", 1, 10);
    settings.denied = -(int)number("USB_DENIED", 0, 10);
    settings.other_denied = -(int)number("USB_OTHER_DENIED", 0, 10);
    settings.opens = number("USB_OPENS", 0, 10);
    settings.denials = number("USB_DENIALS", UINT32_MAX, 10);
    settings.claimed = -(int)number("USB_CLAIMED", 0, 10);
    settings.interface = (uint8_t)number("USB_INTERFACE", 0, 10);
    settings.swapped_interface = (uint8_t)number("USB_SWAP_INTERFACE", settings.interface, 10);
    settings.swapped_name = kept("USB_SWAP_NAME");
    settings.name = kept("USB_NAME");
    settings.next_name = kept("USB_NEXT_NAME");
    settings.configurations = (uint8_t)number("USB_CONFIGURATIONS", 1, 10);
    settings.descriptor = (uint8_t)number("USB_DESCRIPTOR", 9, 10);
    settings.extra = kept("USB_EXTRA");
    settings.string = kept("USB_STRING");
    read_app();
    read_dfuse();
    if (settings.descriptor > 9 || settings.app_descriptor > 9)
        fail_loudly("USB_DESCRIPTOR and USB_APP_DESCRIPTOR are at most 9");
    settings.setting = (int)number("USB_SETTING", (uint32_t)-1, 10);
    settings.alternates = settings.maps != NULL ? count_maps() : number("USB_ALTERNATES", 1, 10);
    if (settings.alternates < 1 || settings.alternates > MOST_ALTERNATES)
        fail_loudly("USB_ALTERNATES is 1 to %d", MOST_ALTERNATES);
    settings.away = number("USB_AWAY", 0, 10);
    settings.absent = number("USB_ABSENT", 0, 10);
    settings.pulled_ms = number("USB_PULLED", 0, 10);
    settings.plugged = number("USB_PLUGGED", 0, 10);
    settings.pause_ms = number("USB_PAUSE", 0, 10);
    settings.slow_ms = number("USB_SLOW", 0, 10);
    fates_read(text("USB_FATE", ""));
    settings.log = kept("USB_LOG");
    settings.save = kept("USB_SAVE");
    settings.state = kept("USB_STATE");
}

#define GETSTATUS 3
bool settings_leave_out(uint8_t request)
{
    return settings.app_stalls_all || (settings.app_stalls_status && request == GETSTATUS);
}
