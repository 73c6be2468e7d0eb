/* SPDX-License-Identifier: MIT OR Apache-2.0 */
/* Parses the command line, and checks which arguments may be combined. */
#include "words.h"
#include "messages.h"

#include <ctype.h>
#include <getopt.h>
#include <stdio.h>
#include <stdlib.h>
#include <string.h>

/* clang-format off */
enum { MOST = 256, FORCE, CONTROLLER, CONFIG, APPLICATION, UPGRADE, CHECK, TRIES, ON_INSTALLED, DFU_MODE, DETACH_TIMEOUT, TRANSFER_SIZE,
       ATTRIBUTES, BUSY, MANIFEST, ERASE, PROGRAM, LEAST, DRY_RUN, VERBOSE, ROOT, HELP, VERSION };

static const struct option options[] = {
    {"most", required_argument, NULL, MOST},
    {"force", no_argument, NULL, FORCE},
    {"controller", required_argument, NULL, CONTROLLER},
    {"config", required_argument, NULL, CONFIG},
    {"application", required_argument, NULL, APPLICATION},
    {"upgrade", required_argument, NULL, UPGRADE},
    {"check", required_argument, NULL, CHECK},
    {"tries", required_argument, NULL, TRIES},
    {"on-installed", required_argument, NULL, ON_INSTALLED},
    {"dfu-mode", no_argument, NULL, DFU_MODE},
    {"detach-timeout", required_argument, NULL, DETACH_TIMEOUT},
    {"transfer-size", required_argument, NULL, TRANSFER_SIZE},
    {"attributes", required_argument, NULL, ATTRIBUTES},
    {"busy", required_argument, NULL, BUSY},
    {"manifest", required_argument, NULL, MANIFEST},
    {"erase", required_argument, NULL, ERASE},
    {"program", required_argument, NULL, PROGRAM},
    {"least", required_argument, NULL, LEAST},
    {"dry-run", no_argument, NULL, DRY_RUN},
    {"verbose", optional_argument, NULL, VERBOSE},
    {"root", required_argument, NULL, ROOT},
    {"help", no_argument, NULL, HELP},
    {"version", no_argument, NULL, VERSION},
    {NULL, 0, NULL, 0},
};
/* clang-format on */

#define MAX_IMAGE_BYTES 16777216 /* largest image that the library accepts, in bytes */
#define MAX_MS 16777215
#define MAX_TRIES 254            /* number of marks that fit into a sector */
#define BY_ATTRIBUTES UINT32_MAX /* value of --manifest if it isn't given */

static bool refuse_to(const char *name, const char *why, const char *next)
{
    say_wrong(name, why);
    fprintf(stderr, "See dfu-gadget --help.\nnext: %s\n", next);
    return false;
}

static bool refuse(const char *name, const char *why)
{
    return refuse_to(name, why, strcmp(name, "usage") == 0 ? "type that line, with your names" : "correct that word");
}

/* Parses a decimal number, for sizes also with K or M for 1024 or 1048576 bytes. */
static bool take_number(const char *text, bool is_size, uint32_t least, uint32_t most, uint32_t *number)
{
    uint64_t found = 0;
    const char *at = text;
    for (; isdigit((unsigned char)*at) && found <= most; at++)
        found = found * 10 + (uint64_t)(*at - '0');
    if (at == text)
        return false;
    if (is_size && (*at == 'K' || *at == 'M'))
        found *= *at++ == 'K' ? 1024 : 1048576;
    if (*at != '\0' || found < least || found > most)
        return false;
    *number = (uint32_t)found;
    return true;
}

static bool take_size(const char *text, uint32_t *number)
{
    return take_number(text, true, 1, MAX_IMAGE_BYTES, number) || refuse(text, "it is no number of bytes, from 1 to 16M");
}

static bool take_ms(const char *text, uint32_t *number)
{
    return take_number(text, false, 0, MAX_MS, number) || refuse(text, "it is no number of milliseconds, from 0 to 16777215");
}

static bool take_short(const char *text, uint32_t least, uint32_t most, const char *why, uint16_t *number)
{
    uint32_t found;
    if (!take_number(text, false, least, most, &found))
        return refuse(text, why);
    *number = (uint16_t)found;
    return true;
}

static bool take_short_ms(const char *text, uint16_t *number)
{
    return take_short(text, 0, 65535, "it is no number of milliseconds, from 0 to 65535", number);
}

/* Parses names of bmAttributes bits, separated by commas. */
static bool take_attributes(const char *text, uint8_t *attributes)
{
    static const char *const names[] = {"download", "upload", "tolerant", "detach"};
    *attributes = 0;
    for (const char *at = text;; at++) {
        size_t length = strcspn(at, ","), bit = 0;
        while (bit < 4 && (strlen(names[bit]) != length || memcmp(names[bit], at, length) != 0))
            bit++;
        if (bit == 4)
            return refuse(text, "--attributes takes download, upload, tolerant and detach, with commas between");
        *attributes |= (uint8_t)(1u << bit);
        at += length;
        if (*at == '\0')
            return true;
    }
}

static bool take_text(const char *text, const char **place)
{
    *place = text;
    return *text != '\0' || refuse_to(text, "an option has an empty word", "give the option its word: in a script a variable may be empty");
}

static bool take(struct words *words, int code, const char *value)
{
    switch (code) {
    case MOST: return take_size(value, &words->most);
    case FORCE: return words->force = true;
    case CONTROLLER: return take_text(value, &words->controller);
    case CONFIG: return take_text(value, &words->config);
    case APPLICATION: return take_text(value, &words->application);
    case UPGRADE: return take_text(value, &words->upgrade);
    case CHECK: return take_text(value, &words->check);
    case TRIES:
        return take_number(value, false, 2, MAX_TRIES, &words->tries)
               || refuse(value, "it is no number of starts, from 2 to 254: a download that is verified starts a new image twice");
    case ON_INSTALLED: return take_text(value, &words->command);
    case DFU_MODE: return words->dfu_mode = true;
    case DETACH_TIMEOUT: return take_short_ms(value, &words->detach_ms);
    case TRANSFER_SIZE: return take_short(value, 1, 4096, "it is no number of bytes, from 1 to 4096", &words->transfer);
    case ATTRIBUTES: return take_attributes(value, &words->attributes);
    case BUSY: return take_ms(value, &words->busy_ms);
    case MANIFEST: return take_ms(value, &words->manifest_ms);
    case ERASE: return take_short_ms(value, &words->erase_ms);
    case PROGRAM: return take_short_ms(value, &words->program_ms);
    case LEAST: return take_size(value, &words->least);
    case DRY_RUN: return words->dry_run = true;
    case VERBOSE: words->verbose = true; return value == NULL || take_text(value, &words->log);
    case ROOT: return take_text(value, &words->root);
    case 'h':
    case HELP: words->job = JOB_HELP; return true;
    case 'V':
    case VERSION: words->job = JOB_VERSION; return true;
    default: fputs("See dfu-gadget --help.\nnext: type one of the options that it lists, with its word\n", stderr); return false;
    }
}

bool words_option(struct words *words, const char *name, const char *value)
{
    for (const struct option *option = options; option->name != NULL; option++) {
        if (strcmp(option->name, name) != 0)
            continue;
        if (option->val < CONTROLLER || option->val == CONFIG || option->val >= HELP)
            return refuse(name, "it can't be in the file of --config");
        if (option->has_arg != optional_argument && (option->has_arg == required_argument) != (value != NULL))
            return refuse(name, value == NULL ? "it takes a word" : "it takes no word");
        return take(words, option->val, value);
    }
    return refuse(name, "there is no such option");
}

static bool take_job(struct words *words, const char *text)
{
    static const char *const names[] = {"format", "image", "run", "start", "confirm", "end"};
    for (int at = 0; at < 6; at++)
        if (strcmp(text, names[at]) == 0)
            words->job = (enum job)(JOB_FORMAT + at);
    return words->job != JOB_NONE
           || refuse_to(text, "it is none of format, image, run, start, confirm and end", "type one of these first, or --help");
}

/* Returns true if no argument is missing and all may be combined; else prints what is wrong. */
static bool is_whole(const struct words *words, bool has_more)
{
    if (words->job == JOB_NONE || words->medium == NULL || *words->medium == '\0')
        return refuse("usage", "dfu-gadget format|image|run|start|confirm|end MEDIUM ..");
    if (has_more)
        return refuse_to(words->medium, "there is a word too many", "leave out what is behind it");
    if (words->job == JOB_FORMAT ? words->image == NULL || words->most == 0 : words->force || words->most != 0)
        return refuse("usage", "dfu-gadget format MEDIUM --most BYTES IMAGE; --most and --force go with it alone");
    if (words->job >= JOB_START ? words->tries == 0 : words->job == JOB_IMAGE && words->tries != 0)
        return refuse("usage", "dfu-gadget start|confirm|end MEDIUM .. --tries N; --tries goes with these, format and run");
    if (words->job == JOB_RUN && words->controller == NULL)
        return refuse_to("usage", "dfu-gadget run MEDIUM --controller UDC", "name the controller: ls /sys/class/udc shows which are there");
    if (words->job == JOB_RUN && (words->attributes & 4) == 0 && words->manifest_ms == 0)
        return refuse("--manifest", "it is at least 1 for a device that isn't tolerant");
    return words->job == JOB_RUN || (words->controller == NULL && words->config == NULL && !words->dry_run)
           || refuse_to("usage", "--controller, --config and --dry-run go with run alone", "leave them out");
}

static bool take_at(struct words *words, const char *text)
{
    return take_number(text, false, 0, UINT32_MAX, &words->at) || refuse(text, "confirm takes AT, a number of bytes as start prints it");
}

/* Processes all options, and the arguments that aren't options. */
static int take_all(struct words *words, int count, char **texts)
{
    int code;
    optind = 0;
    while ((code = getopt_long(count, texts, "hV", options, NULL)) != -1) {
        if (!take(words, code, optarg))
            return STATUS_WORDS;
        if (words->job == JOB_HELP || words->job == JOB_VERSION)
            return STATUS_DONE;
    }
    words->job = JOB_NONE;
    if (optind < count && !take_job(words, texts[optind++]))
        return STATUS_WORDS;
    if (optind < count)
        words->medium = texts[optind++];
    if (words->job == JOB_FORMAT && optind < count)
        words->image = texts[optind++];
    if (words->job == JOB_CONFIRM && !take_at(words, optind < count ? texts[optind++] : ""))
        return STATUS_WORDS;
    return STATUS_DONE;
}

int words_read(struct words *words, int count, char **texts)
{
    int status;
    /* clang-format off */
    *words = (struct words){.application = "application", .upgrade = "upgrade", .root = "", .attributes = 7, .detach_ms = 1000,
                            .transfer = 4096, .busy_ms = 5, .manifest_ms = BY_ATTRIBUTES, .least = 1};
    /* clang-format on */
    status = take_all(words, count, texts);
    if (status == STATUS_DONE && words->config != NULL && words->job == JOB_RUN) {
        status = config_read(words);
        if (status == STATUS_DONE)
            status = take_all(words, count, texts);
    }
    if (status != STATUS_DONE || words->job == JOB_HELP || words->job == JOB_VERSION)
        return status;
    if (words->manifest_ms == BY_ATTRIBUTES)
        words->manifest_ms = (words->attributes & 4) != 0 ? 0 : 20;
    return is_whole(words, optind < count) ? STATUS_DONE : STATUS_WORDS;
}
