/* SPDX-License-Identifier: MIT OR Apache-2.0 */
/* Older versions of musl have no renameat2, so the system call is used directly. */
#define _GNU_SOURCE
#include "../posix/own.h"

#include <fcntl.h>
#include <signal.h>
#include <sys/prctl.h>
#include <sys/syscall.h>
#include <unistd.h>

#define NO_REPLACE 1 /* RENAME_NOREPLACE of linux/fs.h */

int own_rename(const char *from, const char *to)
{
    return (int)syscall(SYS_renameat2, AT_FDCWD, from, AT_FDCWD, to, NO_REPLACE);
}

void own_end_with_parent(void)
{
    prctl(PR_SET_PDEATHSIG, SIGTERM);
}
