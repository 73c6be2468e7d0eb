/* SPDX-License-Identifier: MIT OR Apache-2.0 */
/* Checks what `run` needs: Linux 6.11, FunctionFS, a free controller, two gadgets with FunctionFS, access rights, and a medium. */
#define _GNU_SOURCE
#include "requirements.h"
#include "controller.h"
#include "machine.h"
#include "paths.h"
#include "messages.h"
#include "../common/text.h"

#include <dirent.h>
#include <errno.h>
#include <fcntl.h>
#include <stdio.h>
#include <stdlib.h>
#include <string.h>
#include <unistd.h>

static bool is_all;

/* Prints a line about one requirement. `wrong` is the problem, or "" if there is none. */
static void line(const char *what, const char *which, const char *wrong)
{
    printf("%s: %s ", *wrong == '\0' ? "ok" : "missing", what);
    text_print(stdout, which);
    printf("%s%s\n", *wrong == '\0' ? "" : ": ", wrong);
    is_all = is_all && *wrong == '\0';
}

static void look_at_kernel(void)
{
    char path[MAX_PATH_BYTES], version[128] = "";
    unsigned major = 0, minor = 0;
    bool is_read = path_of_kernel(path, "sys/kernel/osrelease") && path_line(path, version, sizeof version)
                   && sscanf(version, "%u.%u", &major, &minor) == 2;
    bool is_new = is_read && (major > 6 || (major == 6 && minor >= 11));
    line("kernel", is_read ? version : "?", is_new ? "" : "FunctionFS takes the descriptors of DFU from Linux 6.11 on");
}

/* Linux registers the file system functionfs with the first FunctionFS gadget. */
static void look_at_module(void)
{
    char path[MAX_PATH_BYTES], name[128] = "";
    FILE *file = path_of_kernel(path, "filesystems") ? fopen(path, "re") : NULL;
    bool is_there = false;
    while (file != NULL && fgets(name, sizeof name, file) != NULL)
        is_there = is_there || strstr(name, "\tfunctionfs\n") != NULL;
    if (file != NULL)
        fclose(file);
    line("file system", "functionfs", is_there ? "" : "gadget/set-up makes it come, if the modules libcomposite and usb_f_fs are there");
}

/* Finds the gadget that uses the controller, or "" if none does. */
static void find_user(const char *controller, char *user, size_t room)
{
    char path[MAX_PATH_BYTES], text[256];
    const struct dirent *entry;
    DIR *folder = path_of_gadget(path, ".", "") ? opendir(path) : NULL;
    *user = '\0';
    while (folder != NULL && (entry = readdir(folder)) != NULL)
        if (path_is_name(entry->d_name) && path_of_gadget(path, entry->d_name, "UDC") && path_line(path, text, sizeof text)
            && strcmp(text, controller) == 0)
            snprintf(user, room, "%s", entry->d_name);
    if (folder != NULL)
        closedir(folder);
}

static void look_at_controller(const char *name)
{
    char path[MAX_PATH_BYTES], user[256], wrong[512] = "";
    bool is_there = path_is_name(name) && path_of_controller(path, name, "state") && access(path, R_OK) == 0;
    if (is_there)
        find_user(name, user, sizeof user);
    if (!is_there)
        snprintf(wrong, sizeof wrong, "there is no such folder in /sys/class/udc that can be read");
    else if (*user != '\0')
        snprintf(wrong, sizeof wrong, "the gadget %s is on its bus", user);
    line("controller", name, wrong);
}

/* Opening endpoint 0 changes nothing until descriptors are written. */
static void look_at_gadget(const char *name)
{
    char path[MAX_PATH_BYTES], ep0[MAX_PATH_BYTES];
    int file;
    if (!path_is_name(name) || !path_of_gadget(path, name, "UDC") || !path_of_function(ep0, name)) {
        line("gadget", name, "it is no name of a gadget");
        return;
    }
    line("gadget", name, access(path, W_OK) == 0 ? "" : errno == ENOENT ? "gadget/set-up makes it, as root" : strerror(errno));
    file = open(ep0, O_RDWR | O_CLOEXEC);
    line("endpoint 0 of", name,
         file >= 0         ? ""
         : errno == ENOENT ? "its FunctionFS isn't mounted: gadget/set-up does it, as root"
         : errno == EBUSY  ? "another program has it"
                           : strerror(errno));
    if (file >= 0)
        close(file);
}

static void look_at_medium(const char *name, uint32_t tries)
{
    struct medium medium;
    struct dfu_place place;
    int32_t refusal;
    if (!medium_map(&medium, name, MEDIUM_WRITE, medium_head(tries))) {
        line("medium", name, "it can't be had, as said");
        return;
    }
    refusal = machine_image(&medium, &place);
    line("medium", name, refusal == 0 ? "" : machine_words(refusal));
    medium_close(&medium);
}

static void look_at_command(const char *name)
{
    bool is_path = strchr(name, '/') != NULL;
    line("program", name, !is_path || access(name, X_OK) == 0 ? "" : strerror(errno));
}

int look_around(const struct words *words)
{
    is_all = true;
    look_at_kernel();
    look_at_module();
    look_at_controller(words->controller);
    look_at_gadget(words->application);
    look_at_gadget(words->upgrade);
    look_at_medium(words->medium, words->tries);
    if (words->command != NULL)
        look_at_command(words->command);
    if (fflush(stdout) != 0 || ferror(stdout)) {
        say_failed("standard output", "failed");
        return STATUS_FILE;
    }
    return is_all ? STATUS_DONE : STATUS_MISSING;
}
