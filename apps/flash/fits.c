/* SPDX-License-Identifier: MIT OR Apache-2.0 */
/* Checks which options may be combined. */
#include "words.h"
#include "advice.h"
#include "../common/text.h"

#include <stdio.h>
#include <string.h>

/* Returns true if the options may be combined with --all, which flashes every device, so that no option may select one. */
static bool is_fit_for_all(const struct words *words)
{
    if (words->folder != NULL && !words->all)
        return words_refuse("--log goes with --all alone; of one device --verbose=FILE makes a log", "");
    if (!words->all)
        return true;
    if (words->job != JOB_DOWNLOAD || words->dry_run || words->path != NULL || words->serial != NULL) {
        advice_is(words->job == JOB_DOWNLOAD ? "for one device leave out --all, else --path, --serial and --dry-run" : "leave out --all");
        return words_refuse("--all goes with a FILE, and with no --path, --serial or --dry-run", "");
    }
    return (!words->verbose && words->log == NULL) || words_refuse("--all makes logs by --log FOLDER, and not by --verbose", "");
}

/* Returns true if the options for DfuSe may be combined with the others. */
static bool is_fit_for_dfuse(const struct words *words)
{
    bool is_upload = words->job == JOB_UPLOAD, is_download = words->job == JOB_DOWNLOAD;
    if (words->has_address && !is_upload && !is_download)
        return words_refuse("--address goes with a FILE or with --upload", "");
    if (words->has_address && !words->verify)
        return words_refuse("--no-verify doesn't go with --address: what is written there is read back", "");
    if (words->has_address && words->transfer != 0)
        return words_refuse("--transfer-size doesn't go with --address: a DfuSe device counts in blocks of its own size", "");
    if (words->length != 0 && (!is_upload || !words->has_address))
        return words_refuse("--length goes with --upload and --address", "");
    if (is_upload && words->has_address && words->length == 0 && !words->is_to_end)
        return words_refuse("--upload with --address takes --length", "");
    /* -s for an upload also sets `stays`. For a download the file is checked later, when it is read. */
    return !words->stays || words->has_address || is_download || words_refuse("--no-leave goes with --address, or with a DfuSe file", "");
}

/* Returns true if the options for a station may be combined with the others. */
static bool is_fit_for_station(const struct words *words)
{
    bool is_session = words->job == JOB_DOWNLOAD || words->job == JOB_UPLOAD || words->job == JOB_DETACH;
    bool may_name = is_session || words->job == JOB_LIST;
    if ((words->report != NULL && !is_session) || (words->ports != NULL && !may_name)
        || ((words->report != NULL || words->ports != NULL) && words->dry_run))
        return words_refuse("--report and --ports go with a FILE, --upload or --detach, and with no --dry-run", "");
    if (words->boards != 0 && !words->all) {
        if (words->job == JOB_DOWNLOAD)
            advice_run("--all");
        return words_refuse("--count goes with --all", "");
    }
    if ((words->stamp != NULL) != (words->stamp_bytes != 0)) {
        advice_is(words->stamp != NULL ? "add --stamp-at PLACE:BYTES, as --stamp-at 0x40:16"
                                       : "add --stamp LIST, a file with a line for each board");
        return words_refuse("--stamp and --stamp-at go together", "");
    }
    if (words->stamp != NULL && words->job != JOB_DOWNLOAD)
        return words_refuse("--stamp goes with a FILE that is flashed", "");
    return words->retry == 0 || (words->job == JOB_DOWNLOAD && !words->dry_run)
           || words_refuse("--retry goes with a FILE that is flashed", "");
}

/* Name of an option. is_given is true if the command line contains the option. */
struct given {
    bool is_given;
    const char *name;
};

/* Appends the names of the given options, separated by commas. */
static void name_given(const struct given *all, size_t count, char *names, size_t room)
{
    for (size_t at = 0; at < count; at++) {
        size_t length = strlen(names);
        if (all[at].is_given)
            snprintf(names + length, room - length, "%s%s", length > 0 ? ", " : "", all[at].name);
    }
}

/* Names the given options that can't be combined with --demo, because they select the job, the board or details of the session. */
static void name_session(const struct words *words, char *names, size_t room)
{
    const struct given all[] = {
        {words->all, "--all"},
        {words->beside == JOB_LIST, "--list"},
        {words->beside == JOB_UPLOAD, "--upload"},
        {words->beside == JOB_DETACH, "--detach"},
        {words->has_ids, "--device"},
        {words->path != NULL, "--path"},
        {words->serial != NULL, "--serial"},
        {words->interface >= 0, "--interface"},
        {words->alternate >= 0 || words->setting != NULL, "--alt"},
        {!words->verify, "--no-verify"},
        {words->raw, "--raw"},
        {words->force, "--force"},
        {words->wait, "--wait"},
        {words->timeout != 0, "--timeout"},
        {words->has_limits, "--limits"},
        {words->transfer != 0, "--transfer-size"},
        {words->is_to_end || words->leaves, "-s"},
        {words->has_address && !words->is_to_end, "--address"},
        {words->length != 0 && !words->is_to_end, "--length"},
        {words->stays && !words->is_to_end, "--no-leave"},
        {words->dry_run, "--dry-run"},
    };
    name_given(all, sizeof all / sizeof *all, names, room);
}

/* Names the given options for output and for a station that can't be combined with --demo. */
static void name_station(const struct words *words, char *names, size_t room)
{
    const struct given all[] = {
        {words->verbose || words->log != NULL, "--verbose"},
        {words->folder != NULL, "--log"},
        {words->report != NULL, "--report"},
        {words->ports != NULL, "--ports"},
        {words->retry != 0, "--retry"},
        {words->boards != 0, "--count"},
        {words->stamp != NULL, "--stamp"},
        {words->stamp_bytes != 0, "--stamp-at"},
    };
    name_given(all, sizeof all / sizeof *all, names, room);
}

/* Returns true if all options may be combined with --demo; else suggests what to type. */
static bool is_fit_for_demo(const struct words *words)
{
    char line[1100], file[1000] = "", names[400];
    bool has_file = words->file != NULL && text_word(words->file, file, sizeof file);
    names[0] = '\0';
    name_session(words, names, sizeof names);
    name_station(words, names, sizeof names);
    if (names[0] == '\0')
        return true;
    snprintf(line, sizeof line, "run: dfu-flash --demo%s%s%s%s", words->json ? " --json" : "", words->quiet ? " --quiet" : "",
             has_file              ? " "
             : words->file != NULL ? " FILE"
                                   : "",
             has_file ? file : "");
    advice_is(line);
    return words_refuse("--demo goes with a FILE, --json and --quiet alone, because its one board is simulated; leave out", names);
}

/* Returns true if the options may be combined with the job: a download, an upload, a list, a detach or a demo. */
bool words_fit(const struct words *words)
{
    bool has_session = words->has_limits || words->dry_run || words->transfer != 0;
    bool has_log = words->log != NULL;
    if (words->job == JOB_DEMO)
        return is_fit_for_demo(words);
    if (words->force && words->job != JOB_UPLOAD)
        return words_refuse("--force goes with --upload alone", "");
    if (!words->verify && words->job != JOB_DOWNLOAD)
        return words_refuse("--no-verify goes with a download alone", "");
    if (words->raw && words->job != JOB_DOWNLOAD)
        return words_refuse("--raw goes with a FILE that is downloaded", "");
    if (words->job == JOB_LIST && (has_session || words->quiet || has_log || words->wait || words->timeout != 0))
        return words_refuse("--list goes with what chooses devices, and with --json, alone", "");
    if (words->job == JOB_DETACH && has_session)
        return words_refuse("--detach goes with no --limits, --dry-run or --transfer-size", "");
    return is_fit_for_station(words) && is_fit_for_dfuse(words) && is_fit_for_all(words);
}
