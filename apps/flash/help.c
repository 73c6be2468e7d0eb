/* SPDX-License-Identifier: MIT OR Apache-2.0 */
/* Texts of --help and --version. The man page and the completions describe the same options, and tests/apps/flash compares them. */
#include "words.h"

#include <stdio.h>

static const char usage[] =
    "Brings a DFU file to a device over USB (DFU 1.1), or fetches the image that it has\n"
    "\n"
    "Examples: dfu-flash firmware.dfu\n"
    "          dfu-flash --device 1209:0001 image.bin\n"
    "The manual, with exit statuses and steps: man dfu-flash, or uninstalled man share/man/dfu-flash.1\n"
    "\n"
    "Usage: dfu-flash [OPTIONS] FILE, or - for standard input\n"
    "       dfu-flash [OPTIONS] --all FILE\n"
    "       dfu-flash [OPTIONS] --all --address A FILE\n"
    "       dfu-flash [OPTIONS] --upload OUT\n"
    "       dfu-flash [OPTIONS] --address A FILE\n"
    "       dfu-flash [OPTIONS] --address A --length N --upload OUT\n"
    "       dfu-flash [OPTIONS] --detach\n"
    "       dfu-flash --list\n"
    "       dfu-flash --demo [FILE]\n"
    "\n"
    "Coming from dfu-util: its options are taken, the long ones too, and what isn't the same is said\n"
    "  -D FILE              FILE; one without a suffix, a raw image, needs -d VID:PID or -s ADDRESS\n"
    "  -U OUT, -t SIZE      --upload OUT, --transfer-size SIZE\n"
    "  -l, -w, -e, -v, -V   --list, --wait, --detach, --verbose, --version\n"
    "  -d, -p, -S, -i, -a   --device, --path, --serial, --interface, --alt; -d 0x1209:1,:2 and -S A,B too\n"
    "  -s A:leave, -s A     --address A, and with no leave --no-leave too\n"
    "  -s A:N -U OUT        --length N; without N up to the end of the segment\n"
    "  -s :leave            nothing: after a DfuSe file the device leaves; see --no-leave\n"
    "  -R, -E, -Z, -c       nothing: they aren't needed; of -c, the active configuration is taken\n"
    "  -n                   not taken: there is --path; nor mass-erase, unprotect, will-reset and force of -s\n"
    "\n";

static const char options[] =
    "Options:\n"
    "  --device <VID:PID>   Take this device, four hexadecimal digits each\n"
    "  --path <PATH>        Take the device at this path, as 1-2.3\n"
    "  --serial <SERIAL>    Take the device with this serial number\n"
    "  --interface <N>      Take the interface of this number\n"
    "  --alt <N>            Take the alternate setting of this number or name\n"
    "  --no-verify          Don't upload the image after the download to compare it\n"
    "  --raw                Send the bytes of FILE as they are, whatever they look like\n"
    "  --upload <OUT>       Fetch the active image into a new file\n"
    "  --force              Let an upload replace a file that is there\n"
    "  --detach             Bring the device to DFU mode, and stop there\n"
    "  --wait               Wait until the device is there; --wait=<S> for S seconds at most\n"
    "  --timeout <S>        Break the session off after S seconds\n"
    "  --limits <A R>       Give up after A actions, or after R restarts of the device\n"
    "  --transfer-size <B>  Send and ask for blocks of B bytes, up to 4096, whatever the device says\n"
    "  --address <A>        Write FILE to a DfuSe device, or read it, from this address on, as 0x08000000\n"
    "  --length <N>         Read so many bytes, with --upload and --address\n"
    "  --no-leave           Let a DfuSe device stay in DFU mode once all is compared\n"
    "  --dry-run            Look for file and device, and send nothing\n"
    "  --quiet              Print no progress, no notes, no next step, and not what a code means\n"
    "  --verbose            Print a line for each transfer, wait and reset; --verbose=<FILE> logs them\n"
    "  --json               Print one record in JSON at the end\n"
    "  --all                Flash every device that the file is for, with --wait also those that come\n"
    "  --log <FOLDER>       Make a log of each device of --all in this folder\n"
    "  --report <FILE>      Add a line for each device to FILE: CSV if its name ends in .csv, else JSON\n"
    "  --ports <FILE>       Take names for paths from FILE, a line each, as 3-1.4 = bay 7\n"
    "  --retry <N>          Try a device that went or fell silent N times more\n"
    "  --count <N>          End --all once N devices are flashed\n"
    "  --stamp <LIST>       Write the next line of LIST into each image, as a serial number or a key\n"
    "  --stamp-at <P:N>     Where --stamp writes: from place P of the image on, N bytes at most, as 0x40:16\n"
    "  --list               List the devices that are there\n"
    "  --demo               Show with a simulated board what this program does; no USB is touched\n"
    "  -h, --help           Print help\n"
    "  -V, --version        Print the version\n";

void words_help(void)
{
    fputs(usage, stdout);
    fputs(options, stdout);
}

/* Prints Fustrelan's version, with which `dfu --help` also begins. */
void words_version(void)
{
    puts("dfu-flash 0.3.0");
}
