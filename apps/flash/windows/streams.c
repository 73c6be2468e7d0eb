/* SPDX-License-Identifier: MIT OR Apache-2.0 */
/* Sets the streams to binary mode, so that lines end in only a line feed, and standard input can contain an image. If a stream is closed
 * when the program starts, no file gets its number. */
#include "../streams.h"

#include <fcntl.h>
#include <io.h>
#include <stdio.h>

void streams_keep(void)
{
    _setmode(_fileno(stdin), _O_BINARY);
    _setmode(_fileno(stdout), _O_BINARY);
    _setmode(_fileno(stderr), _O_BINARY);
}
