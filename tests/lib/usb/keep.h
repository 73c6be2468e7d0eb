/* Files that a run writes: the active image, and the whole device for the next run. */
#ifndef USB_KEEP_H
#define USB_KEEP_H

#include "model.h"

void keep_image(const struct model *model);
void keep_write(const struct model *model);

/* Restores the device from the file of an earlier run, if there is one. */
void keep_read(const struct model *model);

#endif
