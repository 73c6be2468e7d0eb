/* SPDX-License-Identifier: MIT OR Apache-2.0 */
/* Texts of --help and --version. The man page describes the same options, and tests/apps/gadget compares them. */
#include "words.h"

#include <stdio.h>

void words_help(void)
{
    fputs(
        "Makes a Linux board with a USB device controller a device of DFU 1.1\n"
        "\n"
        "Usage: dfu-gadget format MEDIUM --most BYTES IMAGE\n"
        "       dfu-gadget image MEDIUM\n"
        "       dfu-gadget run MEDIUM --controller UDC [OPTIONS]\n"
        "       dfu-gadget start MEDIUM --tries N\n"
        "       dfu-gadget confirm MEDIUM AT --tries N\n"
        "       dfu-gadget end MEDIUM --tries N\n"
        "\n"
        "format makes a medium, a file or a block device, with IMAGE active; image writes the\n"
        "active image to standard output; run is the device, until a signal ends it. With images\n"
        "on trial start marks a start and prints AT and LENGTH of the image to start, confirm\n"
        "keeps the image at AT, and end brings the one before back.\n"
        "\n"
        "Options of format:\n"
        "  --most <BYTES>          Make room for images of up to so many bytes, as 8M\n"
        "  --force                 Overwrite what is there\n"
        "\n"
        "Option of format, run, start, confirm and end:\n"
        "  --tries <N>             Start a new image so often at most, until it is confirmed\n"
        "\n"
        "Options of run:\n"
        "  --controller <UDC>      Use this controller, a name in /sys/class/udc\n"
        "  --config <FILE>         Read options from FILE, a line for each; words win\n"
        "  --application <NAME>    The gadget of run-time mode, else application\n"
        "  --upgrade <NAME>        The gadget of DFU mode, else upgrade\n"
        "  --check <PROGRAM>       Take an image only if PROGRAM MEDIUM AT LENGTH ends with 0\n"
        "  --on-installed <PROGRAM>\n"
        "                          Run PROGRAM MEDIUM AT LENGTH once an image is in place\n"
        "  --dfu-mode              Begin in DFU mode\n"
        "  --detach-timeout <MS>   Wait so long for the reset after a DETACH, else 1000\n"
        "  --transfer-size <BYTES> Take blocks of up to so many bytes, else 4096\n"
        "  --attributes <LIST>     Of download,upload,tolerant,detach; else the first three\n"
        "  --busy <MS>             What a block takes, reported to the host, else 5\n"
        "  --manifest <MS>         What an image takes, else 0, or 20 if not tolerant\n"
        "  --erase <MS>            What a sector with --tries takes besides, else 0\n"
        "  --program <MS>          What 256 bytes of a block take besides, else 0\n"
        "  --least <BYTES>         Take no image of fewer bytes, else 1\n"
        "  --dry-run               Say what is there and what is missing, and do nothing\n"
        "  --verbose               Print a line for each request; --verbose=<FILE> logs them\n"
        "  --root <FOLDER>         Look for /sys, /dev/usb-ffs and /proc in FOLDER, for tests\n"
        "\n"
        "  -h, --help              Print help\n"
        "  -V, --version           Print the version\n",
        stdout);
}

/* Prints Fustrelan's version. */
void words_version(void)
{
    puts("dfu-gadget 0.3.0");
}
