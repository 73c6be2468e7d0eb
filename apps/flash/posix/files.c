/* SPDX-License-Identifier: MIT OR Apache-2.0 */
#include "../files.h"

FILE *file_open(const char *name)
{
    return fopen(name, "rb");
}
