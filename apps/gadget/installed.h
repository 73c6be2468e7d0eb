/* SPDX-License-Identifier: MIT OR Apache-2.0 */
/* The command of --on-installed. */
#ifndef DFU_GADGET_INSTALLED_H
#define DFU_GADGET_INSTALLED_H

#include <stdbool.h>
#include <stdint.h>

struct installed {
    const char *command; /* NULL if there is none */
    const char *medium;
    int child; /* descriptor for which poll reports the end of the command; -1 if none runs */
    int process;
    bool is_due; /* another image was installed while the command ran */
    uint32_t at, length;
};

/* Runs the command with MEDIUM, AT and LENGTH for the installed image, and doesn't wait for its end. If the command still runs for the
 * previous image, it is run again after its end. */
void installed_run(struct installed *installed, uint32_t at, uint32_t length);

/* Handles the end of the command, which poll reported for `child`. If another image was installed in the meantime, runs the command again.
 */
void installed_end(struct installed *installed);

#endif
