/* SPDX-License-Identifier: MIT OR Apache-2.0 */
/* Folders in which Linux keeps the parts of a gadget. */
#ifndef DFU_GADGET_PATHS_H
#define DFU_GADGET_PATHS_H

#include <stdbool.h>
#include <stddef.h>

#define MAX_PATH_BYTES 512

/* Prefix of all paths that these functions build: "" except in tests (--root). */
extern const char *paths_root;

/* Build /sys/kernel/config/usb_gadget/GADGET/ATTRIBUTE, /dev/usb-ffs/GADGET/ep0 and /sys/class/udc/CONTROLLER/ATTRIBUTE. Return false if
 * the path is too long. */
bool path_of_gadget(char path[MAX_PATH_BYTES], const char *gadget, const char *attribute);
bool path_of_function(char path[MAX_PATH_BYTES], const char *gadget);
bool path_of_controller(char path[MAX_PATH_BYTES], const char *controller, const char *attribute);

/* Builds a path below /proc, for sys/kernel/osrelease and filesystems. */
bool path_of_kernel(char path[MAX_PATH_BYTES], const char *name);

/* Reads the first line of a file, without its newline. Returns false, with the reason in errno, if it can't be read. */
bool path_line(const char *path, char *line, size_t room);

/* Returns true if the name may be part of a path: not empty, without a slash, and not beginning with a dot. */
bool path_is_name(const char *name);

#endif
