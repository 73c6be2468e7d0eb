/* Several boards on one bus. The visible state of each is in memory that this process shares with those that it forks; the device of a
 * board, with its flash, is only in the process that uses it. */
#include "boards.h"
#include "bus.h"
#include "settings.h"

#include <stdio.h>
#include <stdlib.h>
#include <string.h>
#include <sys/mman.h>

#define BOARDS 32
#define WORDS 16 /* maximum number of settings in a line */

static int count, awake = -1, entered;
static struct settings each[BOARDS];
static struct seen *all_seen; /* state of each board; NULL if there is only one */

/* Adds a board with the initial state of a device with these settings. */
static void add_board(void)
{
    bool is_app = settings.starts_in_app;
    each[count] = settings;
    all_seen[count++] = (struct seen){
        .generation = 1,
        .away = settings.absent,
        .is_app = is_app,
        .is_there = settings.app_has_usb || !is_app,
    };
}

/* Reads the settings of a line, which are added to those of the environment. The line must stay in memory, because the settings point into
 * it. */
static void read_board(char *line)
{
    static char *before[WORDS];
    char *words[WORDS];
    int number = 0;
    for (char *word = strtok(line, "\t\n"); word != NULL; word = strtok(NULL, "\t\n")) {
        char *value = strchr(word, '=');
        if (value == NULL || number == WORDS)
            fail_loudly("USB_BOARDS has NAME=VALUE, with tabs between: %s", word);
        *value = '\0';
        before[number] = getenv(word);
        before[number] = before[number] == NULL ? NULL : strdup(before[number]);
        words[number++] = word;
        setenv(word, value + 1, 1);
    }
    settings_read();
    for (int at = number - 1; at >= 0; at--)
        if (before[at] != NULL)
            setenv(words[at], before[at], 1);
        else
            unsetenv(words[at]);
    add_board();
}

static void read_boards(const char *name)
{
    FILE *file = fopen(name, "r");
    char *line = NULL;
    size_t room = 0;
    all_seen = mmap(NULL, sizeof *all_seen * BOARDS, PROT_READ | PROT_WRITE, MAP_SHARED | MAP_ANONYMOUS, -1, 0);
    if (file == NULL || all_seen == MAP_FAILED)
        fail_loudly("%s can't be read", name);
    while (getline(&line, &room, file) > 0) {
        if (count == BOARDS)
            fail_loudly("USB_BOARDS has at most %d boards", BOARDS);
        read_board(line);
        line = NULL;
        room = 0;
    }
    fclose(file);
    if (count == 0)
        fail_loudly("USB_BOARDS has no board");
}

int boards_start(void)
{
    const char *name = getenv("USB_BOARDS");
    if (count > 0)
        return count;
    if (name != NULL)
        read_boards(name);
    else {
        bus_start();
        count = 1;
    }
    boards_enter(0);
    return count;
}

void boards_enter(int board)
{
    entered = board;
    if (all_seen == NULL)
        return;
    settings = each[board];
    seen = &all_seen[board];
}

/* At the end of the process, selects the board that the process used, because the other exit handlers apply to the selected board. */
static void enter_awake(void)
{
    boards_enter(awake);
}

void boards_wake(int board)
{
    if (all_seen == NULL || awake == board)
        return;
    if (awake >= 0)
        fail_loudly("one process works with two boards");
    awake = board;
    bus_make();
    atexit(enter_awake);
}

void boards_pass_time(void)
{
    if (all_seen == NULL || entered == awake)
        bus_pass_time();
}

/* Returns true if a board was unplugged at least `ms` milliseconds ago. */
static bool is_pulled(int board, unsigned ms)
{
    const struct settings *its = &each[board];
    return its->pulled_ms > 0 && all_seen[board].ended_ms > 0 && bus_ms() >= all_seen[board].ended_ms + its->pulled_ms + ms;
}

/* Returns the answer of bus_lists. With several boards, a board is also missing if it was unplugged, or if the board that it replaces is
 * still there. */
bool boards_lists(void)
{
    if (all_seen == NULL)
        return bus_lists();
    if (is_pulled(entered, 0) || (settings.plugged > 0 && !is_pulled((int)settings.plugged - 1, settings.pause_ms)))
        return false;
    return bus_lists();
}
