/* SPDX-License-Identifier: MIT OR Apache-2.0 */
/* dfu-flash writes a DFU file to a device over USB, or reads the image of a device. The proved host decides the next action and the result
 * of a session (dfu_host.h). This program finds the device, carries out the host's actions, and reports their results to the host.
 * share/man/dfu-flash.1 describes its use, and apps/flash/README.md its own part. */
#include "advice.h"
#include "all_devices.h"
#include "demo.h"
#include "next.h"
#include "one_device.h"
#include "platform.h"
#include "record.h"
#include "stamp.h"
#include "station.h"
#include "status.h"
#include "streams.h"

int main(int count, char **texts)
{
    struct image image = {0};
    struct words words;
    streams_keep();
    if (!platform_words(&count, &texts))
        return STATUS_FILE;
    advice_keep(count, texts);
    if (!words_read(&words, count, texts))
        return STATUS_WORDS;
    if (words.quiet)
        next_hush();
    if (!station_begin(&words) || !stamp_begin(&words))
        return record_none(STATUS_FILE, words.json);
    if (words.job == JOB_DEMO)
        return demo_run(&words);
    if (words.job != JOB_HELP && words.job != JOB_VERSION)
        return words.all ? all_run(&words) : one_run(&words, &image, progress_style(words.quiet, words.verbose));
    if (words.job == JOB_HELP)
        words_help();
    else
        words_version();
    return record_out() ? STATUS_DONE : STATUS_FILE;
}
