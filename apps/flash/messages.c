/* SPDX-License-Identifier: MIT OR Apache-2.0 */
/* Prints lines about devices and files. */
#include "messages.h"
#include "advice.h"
#include "platform.h"
#include "standard.h"
#include "status.h"
#include "../common/text.h"

#include <string.h>

const char *say_mark = "";

static void say_descriptor(FILE *out, const struct found *found)
{
    const uint8_t *bytes = found->descriptor;
    if (found->descriptor_size == 0) {
        fputs(", no functional descriptor", out);
        return;
    }
    fprintf(out, ", blocks of %u%s%s%s", (unsigned)two_bytes(bytes + AT_TRANSFER), bytes[AT_ATTRIBUTES] & CAN_DOWNLOAD ? ", download" : "",
            bytes[AT_ATTRIBUTES] & CAN_UPLOAD ? ", upload" : "", bytes[AT_ATTRIBUTES] & IS_TOLERANT ? ", tolerant" : "");
}

static const char *access_words(int access)
{
    switch (access) {
    case 0: return "";
    case LIBUSB_ERROR_BUSY: return ", in use";
    case LIBUSB_ERROR_NO_DEVICE: return ", gone";
    default: return ", no access";
    }
}

void say_text(FILE *out, const char *before, const char *text, const char *after)
{
    fputs(before, out);
    text_print(out, text);
    fputs(after, out);
}

static char reason[512];

bool say_failed(const char *name, const char *what, const char *why)
{
    say_text(stderr, "dfu-flash: ", name, what);
    fprintf(stderr, ": %s\n", why);
    snprintf(reason, sizeof reason, "%s%s: %s", name, what, why);
    return false;
}

bool say_there(const char *name)
{
    advice_is("name another file, or add --force to replace this one, and run it again");
    return say_failed(name, " can't be made", "it is there already; --force replaces a file");
}

const char *say_reason(void)
{
    return reason[0] != '\0' ? reason : NULL;
}

void say_found(FILE *out, const struct found *found)
{
    fprintf(out, "%s%04x:%04x path %s", say_mark, found->vendor, found->product, found->path);
    if (found->serial[0] != '\0')
        say_text(out, " serial ", found->serial, "");
    fprintf(out, " interface %u alt %u", found->interface, found->alternate);
    if (found->name[0] != '\0')
        say_text(out, " \"", found->name, "\"");
    fputs(found->is_upgrade ? " DFU mode" : " run-time mode", out);
    if (is_dfuse(found))
        fputs(", DfuSe", out);
    say_descriptor(out, found);
    if (version_of(found->name) > 0)
        fprintf(out, ", release %04x", found->release);
    fprintf(out, "%s\n", access_words(found->access));
}

int say_no_access(const struct found *found)
{
    fprintf(stderr, "dfu-flash: %04x:%04x at %s ", found->vendor, found->product, found->path);
    if (found->access == LIBUSB_ERROR_BUSY)
        fprintf(stderr, "is in use: another program or a driver has its interface %u", found->interface);
    else if (found->access == LIBUSB_ERROR_NO_DEVICE)
        fprintf(stderr, "is gone: %s", platform_gone_reason());
    else
        fputs("may not be opened", stderr);
    fprintf(stderr, ": %s\n", libusb_error_name(found->access));
    platform_help(found);
    advise_access(found->access);
    return found->access == LIBUSB_ERROR_NO_DEVICE ? STATUS_NO_DEVICE : STATUS_NO_ACCESS;
}
