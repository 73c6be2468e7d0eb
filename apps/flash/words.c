/* SPDX-License-Identifier: MIT OR Apache-2.0 */
/* Parses the command line, and checks which arguments may be combined. */
#include "words.h"
#include "advice.h"
#include "dfu_util.h"
#include "next.h"
#include "options.h"
#include "messages.h"
#include "usage.h"
#include "values.h"

#include <stdio.h>
#include <string.h>

bool words_refuse(const char *what, const char *word)
{
    fprintf(stderr, "dfu-flash: %s", what);
    say_text(stderr, *word != '\0' ? ": " : "", word, "\nSee dfu-flash --help.\n");
    next_say(advice_or(usage_step(what)));
    return false;
}

/* Sets the job. --upload, --detach and --list each replace the download. */
static bool is_job(struct words *words, enum job job)
{
    /* A list, an upload or a detach with --demo is refused later, together with the other options that don't fit. */
    if (words->job == JOB_DEMO || (job == JOB_DEMO && words->job != JOB_DOWNLOAD)) {
        words->file = job == JOB_DEMO && words->job == JOB_UPLOAD ? NULL : words->file;
        words->beside = job == JOB_DEMO ? words->job : job;
        words->job = JOB_DEMO;
        return true;
    }
    if (words->file != NULL && words->job == JOB_DOWNLOAD && job == JOB_DETACH)
        advice_is("to flash FILE leave out -e or --detach: a download brings the device to DFU mode by itself");
    if ((words->file != NULL && job != JOB_DEMO) || (words->job != JOB_DOWNLOAD && words->job != job))
        return words_refuse(words->job == JOB_DETACH || job == JOB_DETACH ? "--detach is all that is done, with no --upload and no --list"
                                                                          : "one --upload, or --list, says what is to be done",
                            "");
    words->job = job;
    return true;
}

static bool is_upload(struct words *words, const char *out)
{
    bool is_taken = is_job(words, JOB_UPLOAD);
    words->file = words->job == JOB_DEMO ? words->file : out;
    return is_taken;
}

/* -D FILE is the same as FILE. After -e it is a download too, as in dfu-util, where the last of these options counts. A download brings the
 * device to DFU mode by itself. */
static bool is_download(struct words *words, const char *file)
{
    if (words->job == JOB_DETACH) {
        dfu_util_pass('e');
        words->job = JOB_DOWNLOAD;
    }
    if (words->file != NULL || (words->job != JOB_DOWNLOAD && words->job != JOB_DEMO))
        return words_refuse("one -D, --upload, --detach or --list says what is to be done", "");
    words->file = file;
    words->is_by_letter = true;
    return true;
}

/* The seconds of --wait may be a separate argument. A file with a name such as 5 must be typed as ./5. */
static bool is_wait(struct words *words, const char *seconds, int count, char **texts)
{
    if (seconds == NULL && optind < count && value_is_seconds(texts[optind]))
        seconds = texts[optind++];
    return value_wait(seconds, words);
}

/* Prints the next step after getopt_long has reported an unknown option. For an argument such as "-list", getopt_long reports single
 * letters. */
static bool is_no_option(char **texts)
{
    bool is_long = strncmp(texts[optind - 1], "--", 2) == 0;
    fputs("See dfu-flash --help.\n", stderr);
    if (is_long)
        advise_word(texts[optind - 1]);
    next_say(advice_or(optopt > 0 && strchr(DFU_UTIL_OPTIONS, optopt) != NULL ? "give it its value, as --help has it"
                       : is_long                                              ? "type one of the options that dfu-flash --help lists"
                                                                              : "leave out that letter, or see dfu-flash --help"));
    return false;
}

static bool take_option(struct words *words, int code, int count, char **texts)
{
    switch (code) {
    case 'd': return dfu_util_device(optarg, words);
    case DEVICE: return value_device(optarg, words);
    case 'p':
    case PATH: return value_path(optarg, words);
    case 'S': return dfu_util_serial(optarg, words);
    case SERIAL: return value_serial(optarg, words);
    case 'i':
    case INTERFACE: return value_interface(optarg, words);
    case 'a':
    case ALTERNATE: return value_setting(optarg, words);
    case NO_VERIFY: words->verify = false; return true;
    case RAW: words->raw = true; return true;
    case 'D': return is_download(words, optarg);
    case 'U':
    case UPLOAD: return is_upload(words, optarg);
    case FORCE: words->force = true; return true;
    case 'e':
    case DETACH: return is_job(words, JOB_DETACH);
    case 'w':
    case WAIT: return is_wait(words, optarg, count, texts);
    case TIMEOUT: return value_timeout(optarg, words);
    case 't':
    case TRANSFER_SIZE: return value_transfer(optarg, words);
    case LIMITS: return value_limits(optarg, optind < count ? texts[optind++] : NULL, words);
    case DRY_RUN: words->dry_run = true; return true;
    case QUIET: words->quiet = true; return true;
    case 'v':
    case VERBOSE: return value_verbose(optarg, words);
    case JSON: words->json = true; return true;
    case ALL: words->all = true; return true;
    case LOG: words->folder = optarg; return *optarg != '\0' || words_refuse("--log takes the name of a folder", "");
    case ADDRESS: return value_address(optarg, words);
    case LENGTH: return value_length(optarg, words);
    case NO_LEAVE: words->stays = true; return true;
    case 's': return dfu_util_address(optarg, words);
    case 'l':
    case LIST: return is_job(words, JOB_LIST);
    case 'c':
    case 'E':
    case 'Z': return true; /* recorded by dfu_util_is_same */
    case 'R': dfu_util_pass('R'); return true;
    case REPORT: words->report = optarg; return *optarg != '\0' || words_refuse("--report takes the name of a file", "");
    case PORTS: words->ports = optarg; return *optarg != '\0' || words_refuse("--ports takes the name of a file", "");
    case BOARDS: return value_boards(optarg, words);
    case RETRY: return value_retry(optarg, words);
    case STAMP: return value_stamp(optarg, words);
    case STAMP_AT: return value_stamp_at(optarg, words);
    case DEMO: return is_job(words, JOB_DEMO);
    case 'h':
    case HELP: words->job = JOB_HELP; return true;
    case 'V':
    case VERSION: words->job = JOB_VERSION; return true;
    default: return is_no_option(texts);
    }
}

/* Arguments that aren't options: FILE, and one that may be too many. */
struct plain {
    const char *texts[2];
    int count;
};

/* Refuses a second file, or an argument for a job that takes none. */
static bool is_too_many(const struct words *words, const char *word)
{
    char step[80];
    if (words->file == NULL || words->job == JOB_UPLOAD) {
        advice_is("leave it out");
        return words_refuse("a word too many", word);
    }
    if (value_is_ids(words->file) || value_is_ids(word)) {
        snprintf(step, sizeof step, "name one FILE, and the device by --device %s", value_is_ids(word) ? word : words->file);
        advice_is(step);
    }
    fputs("dfu-flash: two files were given (", stderr);
    say_text(stderr, "", words->file, ", ");
    say_text(stderr, "", word, "), and dfu-flash takes one; a * may have stood for several\nSee dfu-flash --help.\n");
    next_say(advice_or("name one FILE"));
    return false;
}

/* Takes FILE from the plain arguments. Returns true if none is missing or too many, and all options may be combined. */
static bool is_whole(struct words *words, const struct plain *plain)
{
    bool has_file = words->job == JOB_DOWNLOAD || words->job == JOB_UPLOAD || (words->job == JOB_DEMO && words->file != NULL);
    int at = 0;
    if ((words->job == JOB_DOWNLOAD || words->job == JOB_DEMO) && words->file == NULL && plain->count > 0)
        words->file = plain->texts[at++];
    if (at < plain->count)
        return is_too_many(words, plain->texts[at]);
    if (words->job == JOB_DOWNLOAD && words->file == NULL)
        advice_is("name the file, or - for standard input; dfu-flash --list shows which devices are there");
    if (words->job == JOB_DOWNLOAD && words->file == NULL && words->leaves)
        advice_is("name the file, or press the board's reset: no option only starts the application, as -s ADDRESS:leave of dfu-util does");
    if (words->job == JOB_DOWNLOAD && words->file == NULL)
        return words_refuse(words->patience == 0 ? "no FILE was given" : "no FILE was given; a number after --wait is its seconds", "");
    if (has_file && words->file[0] == '\0')
        return words_refuse("the name of a file is empty", "");
    return words_fit(words);
}

static void take_plain(struct plain *plain, const char *text)
{
    if (plain->count < 2)
        plain->texts[plain->count++] = text;
}

/* Collects the arguments before the next option. Returns true if there is one. All arguments after "--" are collected too. getopt_long
 * can't do this, because it moves such arguments differently on each system, and an option's second value must stay in its position. */
static bool is_option_next(struct plain *plain, int count, char **texts)
{
    while (optind < count && (texts[optind][0] != '-' || texts[optind][1] == '\0'))
        take_plain(plain, texts[optind++]);
    if (optind < count && strcmp(texts[optind], "--") != 0)
        return true;
    while (++optind < count)
        take_plain(plain, texts[optind]);
    return false;
}

/* Returns the code of the next option, with its value in optarg. Some versions of getopt_long don't set optarg to NULL for an option
 * without a value. */
static int next_option(int count, char **texts)
{
    optarg = NULL;
    return getopt_long(count, texts, "+hV" DFU_UTIL_OPTIONS, options, NULL);
}

bool words_read(struct words *words, int count, char **texts)
{
    struct plain plain = {0};
    int code;
    memset(words, 0, sizeof *words);
    words->verify = true;
    words->interface = words->alternate = -1;
    while (is_option_next(&plain, count, texts)) {
        advice_forget();
        texts[optind] = dfu_util_short(texts[optind]);
        if (texts[optind][1] != '-')
            advise_name(texts[optind] + 1);
        code = next_option(count, texts);
        if (!dfu_util_is_same(code, optarg) || !take_option(words, code, count, texts))
            return false;
        if (words->job == JOB_HELP || words->job == JOB_VERSION)
            return true;
    }
    advice_forget();
    if (words->leaves && words->job == JOB_UPLOAD)
        dfu_util_pass('s');
    dfu_util_notes(words->quiet);
    return is_whole(words, &plain);
}
