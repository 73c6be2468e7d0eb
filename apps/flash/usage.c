/* SPDX-License-Identifier: MIT OR Apache-2.0 */
/* Next steps after an invalid command line: how to type the value, or which option to leave out. */
#include "usage.h"
#include "advice.h"

#include <stdio.h>
#include <string.h>

#define OF_THE_LIST "copy it from what dfu-flash --list shows"
#define MAX_DIGITS 8

/* clang-format off */
static const struct {
    const char *begins, *step;
} steps[] = {
    {"--device takes", "type it as --device 1209:0001, with what dfu-flash --list shows"},
    {"-d takes", "type it as -d 1209:0001, with what dfu-flash --list shows"},
    {"--path takes", OF_THE_LIST},
    {"--serial takes", OF_THE_LIST},
    {"-S takes", OF_THE_LIST},
    {"--interface takes", OF_THE_LIST},
    {"--alt takes", OF_THE_LIST},
    {"-a, -i and -t take", "leave out the 0 or 0x in front, if the rest is the decimal number"},
    {"-Z, -c and -E of dfu-util", "leave that option out: it isn't needed here"},
    {"--limits takes", "type both, as --limits 1000 3, or leave it out"},
    {"--address takes", "type it as --address 0x08000000"},
    {"-s takes", "type it as -s 0x08000000, -s 0x08000000:leave or -s 0x08000000:16384"},
    {"--length takes", "type it as --length 16384 or --length 0x4000"},
    {"--verbose takes", "type it as --verbose=flash.log"},
    {"--log takes", "type it as --log logs"},
    {"--report takes", "type it as --report boards.csv"},
    {"--ports takes", "type it as --ports bays.txt"},
    {"--stamp takes", "type it as --stamp serials.txt, a file with a line for each board"},
    {"--stamp-at takes", "type it as --stamp-at 0x40:16"},
    {"--log goes with", "add --all, or type --verbose=FILE in its place"},
    {"--all makes logs", "type --log FOLDER in its place"},
    {"--upload with --address", "add --length BYTES, or type -s ADDRESS -U OUT, which reads to the end of the segment"},
    {"--stamp-at with a file for several", "add --alt NUMBER, as dfu-flash --list shows it"},
    {"--report and --ports go", "leave out --report and --ports"},
    {"--list goes with", "leave out the other options"},
    {"--detach goes with no", "leave out --limits, --dry-run and --transfer-size"},
    {"--detach is all", "do one of them now, and the other one in a second run"},
    {"one --upload", "do one of them now, and the other one in a second run"},
    {"one -D", "do one of them now, and the other one in a second run"},
    {"the name of a file is empty", "name the file: in a script a variable may be empty"},
    {"the file is a DfuSe file", "leave out --raw"},
    {"the file has a suffix", "leave out --raw"},
};
/* clang-format on */

const char *usage_step(const char *what)
{
    static char step[60];
    const char *space = strchr(what, ' ');
    for (size_t at = 0; at < sizeof steps / sizeof *steps; at++)
        if (strncmp(what, steps[at].begins, strlen(steps[at].begins)) == 0)
            return steps[at].step;
    if (strncmp(what, "--", 2) != 0 || space == NULL)
        return "see what each option takes: dfu-flash --help";
    snprintf(step, sizeof step, "leave out %.*s", (int)(space - what), what);
    return step;
}

void usage_advise_address(const char *option, const char *text)
{
    char step[80];
    size_t digits = strspn(text, "0123456789abcdefABCDEF");
    if (digits < 1 || digits > MAX_DIGITS || (text[digits] != '\0' && text[digits] != ':') || strlen(text) > 40)
        return;
    snprintf(step, sizeof step, "type it as %s 0x%s", option, text);
    advice_is(step);
}
