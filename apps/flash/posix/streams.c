/* SPDX-License-Identifier: MIT OR Apache-2.0 */
/* A newly opened file gets the lowest free descriptor. If a standard stream were closed, a report might be written into a USB device. */
#define _POSIX_C_SOURCE 200809L
#include "../streams.h"

#include <fcntl.h>
#include <unistd.h>

void streams_keep(void)
{
    for (int stream = STDIN_FILENO; stream <= STDERR_FILENO; stream++)
        if (fcntl(stream, F_GETFD) == -1 && open("/dev/null", stream == STDIN_FILENO ? O_WRONLY : O_RDONLY) != stream)
            return;
}
