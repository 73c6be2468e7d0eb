/* Fates of single transfers. */
#ifndef USB_FATES_H
#define USB_FATES_H

#include "settings.h"

/* Reads the fates of USB_FATE into the settings. */
void fates_read(const char *line);

/* Returns the fate of the transfer with that number. */
const struct fate *fate_of(unsigned number);

#endif
