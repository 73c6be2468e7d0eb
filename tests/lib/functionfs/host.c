/* Plays the host's script, which GADGET_HOST names, and writes its log GADGET_SAID. A line has one step, or several separated by `;`, which
 * all happen before the program can read any of their events: setup HEX [HEX | xN | none], reset, enable, alt, disable, suspend, resume,
 * unbind, state (the controller's state changes), wait MS, signal N, sh COMMAND. After a line `image` no event happens until the program's
 * child has ended. */
#include "kernel.h"

#include <linux/usb/functionfs.h>
#include <signal.h>
#include <stdarg.h>
#include <stdio.h>
#include <stdlib.h>
#include <string.h>
#include <unistd.h>

static FILE *script, *log_file;
static uint8_t data[65536];
static int data_length;
static int64_t left_ms;

static FILE *open_named(const char *variable, const char *mode)
{
    const char *name = getenv(variable);
    FILE *file = name == NULL ? NULL : fopen(name, mode);
    if (file == NULL)
        _exit(99);
    return file;
}

void host_note(const char *format, ...)
{
    va_list values;
    if (log_file == NULL)
        log_file = open_named("GADGET_SAID", "we");
    va_start(values, format);
    vfprintf(log_file, format, values);
    va_end(values);
    fputc('\n', log_file);
    fflush(log_file);
}

void host_said(const struct endpoint *endpoint, const char *what, const uint8_t *bytes, size_t length)
{
    char text[2 * 64 + 1] = "";
    for (size_t at = 0; at < length && at < 64; at++)
        sprintf(text + 2 * at, "%02x", bytes[at]);
    host_note("%02x%02x %s%s", endpoint->setup[0], endpoint->setup[1], what, text);
}

int host_data(uint8_t *bytes, size_t room)
{
    if (data_length > 0)
        memcpy(bytes, data, (size_t)data_length < room ? (size_t)data_length : room);
    return data_length;
}

static int take_hex(const char *text, uint8_t *bytes)
{
    unsigned one;
    int count = 0;
    while (sscanf(text + 2 * count, "%2x", &one) == 1)
        bytes[count++] = (uint8_t)one;
    return count;
}

static void play_setup(struct endpoint *endpoint, char *words)
{
    char setup[17] = "", body[512] = "";
    sscanf(words, "%16s %511s", setup, body);
    memset(data, 0, sizeof data);
    take_hex(setup, endpoint->setup);
    if (body[0] == 'x')
        data_length = atoi(body + 1);
    else
        data_length = strcmp(body, "none") == 0 ? -1 : take_hex(body, data);
    event_add(endpoint, FUNCTIONFS_SETUP);
}

/* Sets or resets the configuration. Either changes the controller's state, so that the next poll reports an event of the state's file. */
static void play_configured(struct endpoint *endpoint, bool is_set)
{
    is_state_written = true;
    event_add(endpoint, is_set ? FUNCTIONFS_ENABLE : FUNCTIONFS_DISABLE);
    endpoint->is_enabled = is_set;
}

static void play_step(char *step)
{
    struct endpoint *endpoint = joined();
    step += strspn(step, " ");
    if (strncmp(step, "wait ", 5) == 0)
        left_ms = atoll(step + 5);
    else if (strcmp(step, "image") == 0)
        left_ms = -1;
    else if (strncmp(step, "signal ", 7) == 0)
        raise(atoi(step + 7));
    else if (strncmp(step, "sh ", 3) == 0 && system(step + 3) != 0)
        _exit(97);
    else if (strncmp(step, "sh ", 3) == 0)
        return;
    else if (endpoint == NULL)
        host_note("nobody is on the bus");
    else if (strncmp(step, "setup ", 6) == 0)
        play_setup(endpoint, step + 6);
    else if (strcmp(step, "enable") == 0)
        play_configured(endpoint, true);
    else if (strcmp(step, "reset") == 0 || strcmp(step, "disable") == 0)
        play_configured(endpoint, false);
    else if (strcmp(step, "alt") == 0)
        event_add(endpoint, FUNCTIONFS_ENABLE);
    else if (strcmp(step, "state") == 0)
        is_state_written = true;
    else if (strcmp(step, "unbind") == 0)
        event_add(endpoint, FUNCTIONFS_UNBIND);
    else if (strcmp(step, "suspend") == 0)
        event_add(endpoint, FUNCTIONFS_SUSPEND);
    else if (strcmp(step, "resume") == 0)
        event_add(endpoint, FUNCTIONFS_RESUME);
    else
        _exit(98);
}

bool host_play(int64_t *pause)
{
    char line[1024], *step;
    if (script == NULL)
        script = open_named("GADGET_HOST", "re");
    if (fgets(line, sizeof line, script) == NULL) {
        raise(SIGTERM);
        return true;
    }
    line[strcspn(line, "\n")] = '\0';
    if (line[0] == '#' || line[0] == '\0')
        return true;
    for (step = strtok(line, ";"); step != NULL; step = strtok(NULL, ";"))
        play_step(step);
    *pause = left_ms;
    left_ms = 0;
    return *pause == 0;
}
