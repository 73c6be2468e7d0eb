/* `appended FILE`: sixteen processes append lines to FILE at the same time, by apps/flash/posix/append.c. If a page of the file ends in a
 * line, a reader may see the first part of the line before the rest. No process may treat that as a truncated line and end it. */
#include "../../../../apps/flash/append.h"
#include "../../../../apps/flash/clock.h"
#include "../../../../apps/flash/messages.h"

#include <stdio.h>
#include <string.h>
#include <sys/wait.h>
#include <unistd.h>

#define PROCESSES 16
#define LINES 400

bool clock_wait(uint32_t ms)
{
    (void)ms;
    return true;
}

void say_text(FILE *out, const char *before, const char *text, const char *after)
{
    fprintf(out, "%s%s%s", before, text, after);
}

static int add_lines(int file)
{
    static const char line[] = "a line of 61 bytes, so that few pages of the file end with one\n";
    for (int count = 0; count < LINES; count++)
        if (!append_line(file, line, strlen(line)))
            return 1;
    return 0;
}

int main(int count, char **texts)
{
    char front[16];
    const char *why;
    int file = count < 2 ? -1 : append_open(texts[1], front, sizeof front, &why), failed = 0, how;
    if (file < 0)
        return 2;
    for (int process = 0; process < PROCESSES; process++)
        if (fork() == 0)
            _exit(add_lines(file));
    while (wait(&how) > 0)
        failed += how != 0;
    return failed != 0;
}
