/* SPDX-License-Identifier: MIT OR Apache-2.0 */
/* Without an exclusive rename, a new file gets its name by a hard link. A process whose parent is killed continues. */
#include "../posix/own.h"

#include <errno.h>

int own_rename(const char *from, const char *to)
{
    (void)from;
    (void)to;
    errno = ENOSYS;
    return -1;
}

void own_end_with_parent(void)
{
}
