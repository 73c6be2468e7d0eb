/* SPDX-License-Identifier: MIT OR Apache-2.0 */
/* --all needs several processes, which only the folder posix supports. */
#include "../all_devices.h"
#include "../status.h"
#include "../worker.h"

#include <stdio.h>

int all_run(const struct words *words)
{
    (void)words;
    fputs("dfu-flash: --all isn't there on Windows: flash one device after the other, by --path\n", stderr);
    return STATUS_WORDS;
}

/* On Windows no first process reads these messages. */
void worker_print_serial(bool is_upgrade, const char *serial)
{
    (void)is_upgrade;
    (void)serial;
}

bool worker_print_begun(uint32_t number, bool has_stamp)
{
    (void)number;
    (void)has_stamp;
    return true;
}

void worker_print_taken(bool is_proved)
{
    (void)is_proved;
}
