/* SPDX-License-Identifier: MIT OR Apache-2.0 */
#include "installed.h"
#include "program.h"
#include "messages.h"

#include <inttypes.h>
#include <stddef.h>
#include <unistd.h>

static void start(struct installed *installed)
{
    installed->is_due = false;
    installed->process = program_start(installed->command, installed->medium, installed->at, installed->length, &installed->child);
    if (installed->process >= 0 && installed->child < 0) {
        say_failed(installed->command, "is waited for");
        installed_end(installed);
    }
}

void installed_run(struct installed *installed, uint32_t at, uint32_t length)
{
    say_event("installed: %" PRIu32 " bytes at %" PRIu32, length, at);
    if (installed->command == NULL)
        return;
    installed->at = at;
    installed->length = length;
    installed->is_due = true;
    if (installed->child < 0)
        start(installed);
}

void installed_end(struct installed *installed)
{
    if (installed->child >= 0)
        close(installed->child);
    installed->child = -1;
    (void)program_end(installed->process);
    if (installed->is_due)
        start(installed);
}
