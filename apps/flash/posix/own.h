/* SPDX-License-Identifier: MIT OR Apache-2.0 */
/* Calls that not every POSIX system has. The folder linux implements them for Linux, and the folder unix for all others. */
#ifndef DFU_FLASH_OWN_H
#define DFU_FLASH_OWN_H

/* Renames a file without replacing another one. Returns 0, or -1 with the reason in errno: ENOSYS or EINVAL if the system or the file
 * system lacks such a call. */
int own_rename(const char *from, const char *to);

/* Requests SIGTERM for this process when its parent ends, if the system supports that. */
void own_end_with_parent(void);

#endif
