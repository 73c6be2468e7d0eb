/* SPDX-License-Identifier: MIT OR Apache-2.0 */
#include "../files.h"
#include "utf16.h"

#include <stdlib.h>
#include <wchar.h>

FILE *file_open(const char *name)
{
    wchar_t *wide = utf16(name);
    FILE *file = wide == NULL ? NULL : _wfopen(wide, L"rb");
    free(wide);
    return file;
}
