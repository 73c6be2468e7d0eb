/* The back end of U-Boot's DFU: it checks the numbers of blocks, gathers the blocks in a buffer, and writes them to a medium that may fail.
 */
#ifndef USB_UBOOT_STORE_H
#define USB_UBOOT_STORE_H

#include "model.h"

void store_make(void);

/* Drops the gathered part, as a loss of power does; the medium stays. */
void store_forget(void);

/* Stores a block; a block of no bytes ends the download. Returns 0, or -1 if the number is wrong or a write failed. */
int store_write(const uint8_t *bytes, size_t count, uint16_t number);

/* Writes the gathered part, and replaces the file. Returns 0, or -1. */
int store_flush(void);

/* Reads the next bytes of the image, at most `room`. Returns their number, or -1 if the number of the block is wrong. */
int store_read(uint8_t *out, size_t room, uint16_t number);

struct part store_image(void);
struct part store_keeps(unsigned number);

#endif
