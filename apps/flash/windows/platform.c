/* SPDX-License-Identifier: MIT OR Apache-2.0 */
/* The arguments are UTF-16 on Windows, and a console shows UTF-8 only after SetConsoleOutputCP. */
#include "../platform.h"
#include "utf16.h"

#include <shellapi.h>
#include <stdio.h>
#include <stdlib.h>
#include <windows.h>

static UINT page_before;

static void give_page_back(void)
{
    SetConsoleOutputCP(page_before);
}

bool platform_words(int *count, char ***texts)
{
    int words;
    wchar_t **wide = CommandLineToArgvW(GetCommandLineW(), &words);
    char **narrow = wide == NULL ? NULL : calloc((size_t)words + 1, sizeof *narrow);
    if (narrow == NULL)
        return false;
    for (int at = 0; at < words; at++) {
        narrow[at] = utf8(wide[at]);
        if (narrow[at] == NULL)
            return false;
    }
    LocalFree(wide);
    *count = words;
    *texts = narrow;
    page_before = GetConsoleOutputCP();
    if (page_before != 0 && page_before != CP_UTF8 && SetConsoleOutputCP(CP_UTF8))
        atexit(give_page_back);
    return true;
}

const char *platform_gone_reason(void)
{
    return "it left";
}

void platform_help(const struct found *found)
{
    if (found->access == LIBUSB_ERROR_NOT_SUPPORTED || found->access == LIBUSB_ERROR_NOT_FOUND)
        fprintf(stderr,
                "Windows has not bound the driver WinUSB to it. A device can ask for that by itself (Microsoft's OS descriptors\n"
                "2.0); else Zadig (https://zadig.akeo.ie) binds it, to %04x:%04x in this mode, and again in the other mode.\n",
                found->vendor, found->product);
    else if (found->access == LIBUSB_ERROR_ACCESS || found->access == LIBUSB_ERROR_IO)
        fputs("Windows gives a device to one program at a time: another one may have it open.\n", stderr);
}
