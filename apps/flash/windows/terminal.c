/* SPDX-License-Identifier: MIT OR Apache-2.0 */
/* Only a console counts as a terminal. NUL is a character device too, but no person reads it. */
#include "../terminal.h"

#include <io.h>
#include <windows.h>

static HANDLE handle_of(FILE *stream)
{
    return (HANDLE)_get_osfhandle(_fileno(stream));
}

bool terminal_is(FILE *stream)
{
    DWORD mode;
    return GetConsoleMode(handle_of(stream), &mode) != 0;
}

bool terminal_size(int *columns, int *lines)
{
    CONSOLE_SCREEN_BUFFER_INFO screen;
    if (!GetConsoleScreenBufferInfo(handle_of(stderr), &screen))
        return false;
    *columns = screen.srWindow.Right - screen.srWindow.Left + 1;
    *lines = screen.srWindow.Bottom - screen.srWindow.Top + 1;
    return *columns > 0 && *lines > 0;
}

const char *terminal_end_key(void)
{
    return "Ctrl-Z and Enter";
}
