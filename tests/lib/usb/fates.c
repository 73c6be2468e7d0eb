/* Reads the fates of transfers from USB_FATE, and returns the fate of each transfer. */
#include "fates.h"

#include <stdio.h>
#include <string.h>

static enum fate_kind kind_of(const char *word)
{
    static const char *const words[] = {"pass", "lost-out", "lost-back", "twice", "short", "leave", "swap",
                                        "kill", "deaf",     "mute",      "stuck", "cut",   "stall"};
    for (unsigned kind = 0; kind < sizeof words / sizeof *words; kind++)
        if (strcmp(word, words[kind]) == 0)
            return (enum fate_kind)kind;
    fail_loudly("USB_FATE: no such fate: %s", word);
}

void fates_read(const char *line)
{
    char word[16];
    int used = 0;
    for (struct fate fate = {0}; sscanf(line, " %15[a-z-] %u%n", word, &fate.number, &used) == 2; fate.bytes = 0) {
        int more = 0;
        fate.kind = kind_of(word);
        line += used;
        if (fate.kind == FATE_SHORT && (sscanf(line, "%u%n", &fate.bytes, &more) != 1))
            fail_loudly("USB_FATE: short N BYTES");
        line += more + (line[more] == ',');
        if (settings.fate_count == FATES)
            fail_loudly("USB_FATE: at most %d fates", FATES);
        settings.fates[settings.fate_count++] = fate;
    }
    if (*line != '\0')
        fail_loudly("USB_FATE is not understood: %s", line);
}

static bool is_lasting(const struct fate *fate)
{
    return fate->kind == FATE_DEAF || fate->kind == FATE_MUTE;
}

const struct fate *fate_of(unsigned number)
{
    static const struct fate pass;
    for (unsigned i = 0; i < settings.fate_count; i++)
        if (settings.fates[i].number == number || (is_lasting(&settings.fates[i]) && settings.fates[i].number < number))
            return &settings.fates[i];
    return &pass;
}
