/* SPDX-License-Identifier: MIT OR Apache-2.0 */
/* Finds the folders in which Linux keeps the parts of a gadget, and reads their one-line files. */
#define _POSIX_C_SOURCE 200809L
#include "paths.h"

#include <errno.h>
#include <fcntl.h>
#include <stdio.h>
#include <string.h>
#include <unistd.h>

const char *paths_root = "";

static bool make(char path[MAX_PATH_BYTES], const char *folder, const char *name, const char *file)
{
    int length = snprintf(path, MAX_PATH_BYTES, "%s%s/%s%s%s", paths_root, folder, name, *file == '\0' ? "" : "/", file);
    return length > 0 && length < MAX_PATH_BYTES;
}

bool path_of_gadget(char path[MAX_PATH_BYTES], const char *gadget, const char *attribute)
{
    return make(path, "/sys/kernel/config/usb_gadget", gadget, attribute);
}

bool path_of_function(char path[MAX_PATH_BYTES], const char *gadget)
{
    return make(path, "/dev/usb-ffs", gadget, "ep0");
}

bool path_of_controller(char path[MAX_PATH_BYTES], const char *controller, const char *attribute)
{
    return make(path, "/sys/class/udc", controller, attribute);
}

bool path_of_kernel(char path[MAX_PATH_BYTES], const char *name)
{
    return make(path, "/proc", name, "");
}

bool path_line(const char *path, char *line, size_t room)
{
    int error, file = open(path, O_RDONLY | O_CLOEXEC);
    ssize_t count = file < 0 ? -1 : read(file, line, room - 1);
    error = errno;
    if (file >= 0)
        close(file);
    errno = error;
    line[count < 0 ? 0 : count] = '\0';
    line[strcspn(line, "\n")] = '\0';
    return count >= 0;
}

bool path_is_name(const char *name)
{
    return *name != '\0' && *name != '.' && strchr(name, '/') == NULL && strlen(name) < 128;
}
