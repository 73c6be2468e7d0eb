/* SPDX-License-Identifier: MIT OR Apache-2.0 */
/* The long options, and suggestions for unknown ones. */
#include "options.h"
#include "advice.h"
#include "dfu_util.h"

#include <stdio.h>
#include <string.h>

/* clang-format off */
const struct option options[] = {
    {"device", required_argument, NULL, DEVICE},   {"path", required_argument, NULL, PATH},
    {"serial", required_argument, NULL, SERIAL},   {"interface", required_argument, NULL, INTERFACE},
    {"alt", required_argument, NULL, ALTERNATE},   {"no-verify", no_argument, NULL, NO_VERIFY},
    {"raw", no_argument, NULL, RAW},
    {"upload", required_argument, NULL, UPLOAD},   {"force", no_argument, NULL, FORCE},
    {"detach", no_argument, NULL, DETACH},         {"wait", optional_argument, NULL, WAIT},
    {"timeout", required_argument, NULL, TIMEOUT}, {"limits", required_argument, NULL, LIMITS},
    {"transfer-size", required_argument, NULL, TRANSFER_SIZE},
    {"dry-run", no_argument, NULL, DRY_RUN},       {"quiet", no_argument, NULL, QUIET},
    {"verbose", optional_argument, NULL, VERBOSE}, {"json", no_argument, NULL, JSON},
    {"all", no_argument, NULL, ALL},               {"log", required_argument, NULL, LOG},
    {"address", required_argument, NULL, ADDRESS}, {"length", required_argument, NULL, LENGTH},
    {"no-leave", no_argument, NULL, NO_LEAVE},
    {"list", no_argument, NULL, LIST},             {"demo", no_argument, NULL, DEMO},             {"help", no_argument, NULL, HELP},
    {"report", required_argument, NULL, REPORT},   {"ports", required_argument, NULL, PORTS},
    {"count", required_argument, NULL, BOARDS},    {"retry", required_argument, NULL, RETRY},
    {"stamp", required_argument, NULL, STAMP},     {"stamp-at", required_argument, NULL, STAMP_AT},
    {"version", no_argument, NULL, VERSION},       {NULL, 0, NULL, 0},
};
/* clang-format on */

/* Unknown options that people often try, with what to use instead. */
static const struct {
    const char *word, *step;
} tried[] = {
    {"verify", "leave it out: a download is compared unless --no-verify is given"},
    {"mass-erase", "leave it out: the pages of the image are erased, and no option erases all; ST's tools do"},
    {"erase", "leave it out: the pages of the image are erased, and no option erases all; ST's tools do"},
    {"unprotect", "leave it out: no option takes protection away; ST's tools do, and erase all"},
    {"flash", "leave it out: dfu-flash FILE flashes it"},
    {"write", "leave it out: dfu-flash FILE flashes it"},
    {"file", "leave it out: dfu-flash FILE flashes it"},
    {"read", "did you mean --upload?"},
    {"output", "did you mean --upload?"},
    {"alternate", "did you mean --alt?"},
    {"altsetting", "did you mean --alt?"},
    {"leave", "leave it out: a device leaves DFU mode once all is compared; see --no-leave"},
    {"vid", "did you mean --device?"},
    {"pid", "did you mean --device?"},
    {"port", "did you mean --path?"},
    {"names", "did you mean --ports?"},
    {"serials", "did you mean --stamp?"},
    {"keys", "did you mean --stamp?"},
};
/* clang-format on */

#define COUNT(table) (sizeof(table) / sizeof *(table))
#define LONGEST 31

static size_t least(size_t one, size_t other)
{
    return one < other ? one : other;
}

/* Returns the edit distance of two words: letters that are inserted, removed, changed, or swapped with their neighbour. */
static size_t distance(const char *one, const char *other)
{
    size_t rows[3][LONGEST + 1], width = strlen(other);
    for (size_t at = 0; at <= width; at++)
        rows[0][at] = at;
    for (size_t line = 1; line <= strlen(one); line++) {
        size_t *row = rows[line % 3], *last = rows[(line + 2) % 3], *before = rows[(line + 1) % 3];
        row[0] = line;
        for (size_t at = 1; at <= width; at++) {
            row[at] = least(least(row[at - 1], last[at]) + 1, last[at - 1] + (one[line - 1] != other[at - 1]));
            if (line > 1 && at > 1 && one[line - 1] == other[at - 2] && one[line - 2] == other[at - 1])
                row[at] = least(row[at], before[at - 2] + 1);
        }
    }
    return rows[strlen(one) % 3][width];
}

/* Returns the option with exactly this name, or NULL. */
static const struct option *option_of(const char *name)
{
    for (const struct option *option = options; option->name != NULL; option++)
        if (strcmp(option->name, name) == 0)
            return option;
    return NULL;
}

/* Returns the option that is most similar to a word, or NULL if none is similar or two are equally similar. For a misspelled `download`,
 * which isn't an option, returns `download` and not the similar `upload`. */
static const char *nearest(const char *word)
{
    static const char download[] = "download";
    const char *best = NULL;
    size_t fewest = strlen(word) / 3 + 1;
    bool is_one = false;
    if (distance(word, download) <= 1 || (strlen(word) > 2 && strncmp(download, word, strlen(word)) == 0))
        return download;
    for (const struct option *option = options; option->name != NULL; option++) {
        size_t edits = distance(word, option->name);
        if (edits > fewest || (edits == fewest && best != NULL && !is_one))
            continue;
        is_one = best == NULL || edits < fewest;
        best = option->name;
        fewest = edits;
    }
    return is_one ? best : NULL;
}

void advise_word(const char *word)
{
    char name[LONGEST + 1], step[80];
    const char *meant;
    size_t length;
    word += strspn(word, "-");
    length = strcspn(word, "=");
    if (length == 0 || length > LONGEST)
        return;
    memcpy(name, word, length);
    name[length] = '\0';
    for (size_t at = 0; at < COUNT(tried); at++)
        if (strcmp(tried[at].word, name) == 0) {
            advice_is(tried[at].step);
            return;
        }
    if (option_of(name) != NULL) {
        advice_is(option_of(name)->has_arg == no_argument ? "leave out what is behind its =" : "give it its value, as --help has it");
        return;
    }
    meant = nearest(name);
    if (meant == NULL)
        return;
    snprintf(step, sizeof step, "did you mean --%s?", meant);
    advice_is(step);
}

void advise_name(const char *word)
{
    char step[80];
    if (option_of(word) == NULL)
        return;
    snprintf(step, sizeof step, "did you mean --%s?", word);
    advice_is(step);
}
