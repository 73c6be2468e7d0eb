/* Plays all paths of an inline call. Each result of a stand-in is a choice on a tape, and each tape is played once. */
#include <stdio.h>
#include <stdlib.h>
#include <string.h>

#include "monitor.h"

#define LONGEST 200

static const char *const names[CALLS] = {"",
                                         "power_on",
                                         "begin",
                                         "handle",
                                         "elapse",
                                         "usb_reset",
                                         "next",
                                         "took",
                                         "would_stall",
                                         "closes",
                                         "too_long",
                                         "refuse_close",
                                         "refuse",
                                         "candidate",
                                         "due",
                                         "state",
                                         "code",
                                         "image",
                                         "is_blank",
                                         "functional",
                                         "format_start",
                                         "format_next",
                                         "format_took",
                                         "trial_look",
                                         "trial_start",
                                         "trial_start_from",
                                         "trial_runs",
                                         "trial_confirm",
                                         "trial_end",
                                         "trial_upload",
                                         "install_next",
                                         "install_took",
                                         "home_next",
                                         "home_took",
                                         "home_may_download",
                                         "operation"};
unsigned long paths, checks;
static unsigned tape[LONGEST], width[LONGEST], length, at, events;
static const char *of;
static struct {
    enum call call;
    int32_t number;
    int has_number;
} trail[LONGEST];

void holds(int truth, const char *what)
{
    checks++;
    if (truth)
        return;
    printf("%s: %s:", of, what);
    for (unsigned i = 0; i < events; i++) {
        printf(" %s", names[trail[i].call]);
        if (trail[i].has_number)
            printf("=%d", (int)trail[i].number);
    }
    puts("");
    exit(1);
}

void note(enum call call)
{
    holds(events < LONGEST, "a path without end");
    trail[events].call = call;
    trail[events++].has_number = 0;
}

void note_number(int32_t number)
{
    trail[events - 1].number = number;
    trail[events - 1].has_number = 1;
}

unsigned pick(unsigned n)
{
    if (at == length) {
        holds(length < LONGEST, "a path without end");
        tape[length] = 0;
        width[length++] = n;
    }
    holds(width[at] == n, "the same choices lead to another path");
    return tape[at++];
}

int next_path(const char *name)
{
    if (of != NULL) {
        while (length != 0 && tape[length - 1] + 1 == width[length - 1])
            length--;
        if (length == 0) {
            of = NULL;
            return 0;
        }
        tape[length - 1]++;
    }
    of = name;
    at = events = 0;
    paths++;
    return 1;
}

void path_ends(void)
{
    holds(at == length, "the same choices lead to another path");
}
