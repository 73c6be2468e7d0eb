/* SPDX-License-Identifier: MIT OR Apache-2.0 */
/* Reads the file for a download. */
#include "files.h"
#include "advice.h"
#include "messages.h"
#include "terminal.h"

#include <errno.h>
#include <stdio.h>
#include <stdlib.h>
#include <string.h>

#define MAX_FILE_BYTES 16777216 /* largest DFU file; one more byte is read, and refused as TooLarge */

/* Opens standard input for `-`. A file with that name is given as ./- */
static FILE *open_file(const char *name)
{
    if (strcmp(name, "-") != 0)
        return file_open(name);
    if (terminal_is(stdin))
        fprintf(stderr, "dfu-flash: the image is read from this terminal; %s ends it\n", terminal_end_key());
    return stdin;
}

bool file_read(const char *name, uint8_t **bytes, size_t *length)
{
    FILE *file = open_file(name);
    bool is_read = false;
    *bytes = file == NULL ? NULL : malloc(MAX_FILE_BYTES + 1 + FILE_SPARE);
    if (*bytes != NULL) {
        *length = fread(*bytes, 1, MAX_FILE_BYTES + 1, file);
        is_read = !ferror(file);
    }
    if (!is_read) {
        int error = errno;
        say_failed(file == stdin ? "standard input" : name, " can't be read", strerror(error));
        if (error == ENOENT)
            advice_is("check its name, and which folder you are in, and run it again");
        if (error == EISDIR)
            advice_is("name a file that is in this folder, and run it again");
        free(*bytes);
        *bytes = NULL;
    }
    if (file != NULL && file != stdin)
        fclose(file);
    return is_read;
}
