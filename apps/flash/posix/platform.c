/* SPDX-License-Identifier: MIT OR Apache-2.0 */
#include "../platform.h"

#include <stdio.h>

bool platform_words(int *count, char ***texts)
{
    (void)count;
    (void)texts;
    return true;
}

const char *platform_gone_reason(void)
{
    return "it left, or there is no file for it below /dev/bus/usb, as in a container";
}

static void say_rule(const struct found *found)
{
    fprintf(stderr,
            "To allow it to who sits at this computer, as root write this line to /etc/udev/rules.d/60-dfu-%04x.rules,\n"
            "and run `udevadm control --reload`; then plug the device in again:\n"
            "SUBSYSTEM==\"usb\", ATTR{idVendor}==\"%04x\", ATTR{idProduct}==\"%04x\", MODE=\"0660\", TAG+=\"uaccess\"\n"
            "To allow it for every device with DFU, run `make install UDEVDIR=/etc/udev/rules.d` of Fustrelan as root, which\n"
            "installs 70-dfu.rules. Over ssh nobody sits there: that file has a line for the members of a group.\n",
            found->vendor, found->vendor, found->product);
}

void platform_help(const struct found *found)
{
    if (found->access == LIBUSB_ERROR_ACCESS)
        say_rule(found);
}
