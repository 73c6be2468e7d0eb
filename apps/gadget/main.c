/* SPDX-License-Identifier: MIT OR Apache-2.0 */
/* dfu-gadget makes a Linux board a DFU device. The proved device (dfu_device.h and dfu_trial.h, called only in machine.c and trial.c)
 * decides the answers, the effect of time, and the writes with their order. This program carries them out by FunctionFS and on the medium,
 * and isn't proved. share/man/dfu-gadget.1 describes its use.
 *
 *     words, config, help     the command line, and the file of --config
 *     make, look, run         the commands format and image, --dry-run, and run
 *     machine, driver         the calls of the library, and the writes that it requests
 *     trial                   images on trial: the commands start, confirm and end
 *     bus                     requests, time, resets, and the gadget on the bus
 *     function, descriptors   FunctionFS: its events, transfers and descriptors
 *     controller, paths       the controller, and the files below /sys, /dev and /proc
 *     medium                  files and block devices with two slots, and writes to them
 *     installed, stop, say    the command of --on-installed, signals, and the log */
#include "requirements.h"
#include "medium_file.h"
#include "paths.h"
#include "run.h"
#include "messages.h"
#include "trial.h"

#include <stdio.h>

static int print_text(const struct words *words)
{
    if (words->job == JOB_HELP)
        words_help();
    else
        words_version();
    if (fflush(stdout) == 0 && !ferror(stdout))
        return STATUS_DONE;
    say_failed("standard output", "failed");
    return STATUS_FILE;
}

int main(int count, char **texts)
{
    static char lines[BUFSIZ]; /* each line is one write, because other programs write to this stream too */
    struct words words;
    int status;
    setvbuf(stderr, lines, _IOLBF, sizeof lines);
    status = words_read(&words, count, texts);
    if (status != STATUS_DONE)
        return status;
    paths_root = words.root;
    switch (words.job) {
    case JOB_FORMAT: return make_medium(&words);
    case JOB_IMAGE: return write_image(&words);
    case JOB_RUN: return words.dry_run ? look_around(&words) : run_device(&words);
    case JOB_START: return start_image(&words);
    case JOB_CONFIRM: return confirm_image(&words);
    case JOB_END: return end_trial(&words);
    default: return print_text(&words);
    }
}
