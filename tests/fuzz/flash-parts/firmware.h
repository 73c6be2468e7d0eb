/* The files of a run: FILE, valid or damaged, and sometimes a file that exists at OUT. */
#ifndef FUZZ_FIRMWARE_H
#define FUZZ_FIRMWARE_H

#include <stdbool.h>
#include <stdint.h>

/* A file with this name may be a raw image; one that ends in .dfu may not. */
#define FILE_NAME "firmware.bin"
#define OUT_NAME "out"
#define MOST_FIRMWARE 6000

struct firmware {
    uint8_t bytes[MOST_FIRMWARE + 300];
    uint32_t payload, length; /* bytes of the image, and of the file */
    bool is_raw;              /* the file has no suffix */
    bool is_dfuse;            /* the suffix has bcdDFU 011Ah, that of a DfuSe file */
    bool has_format;          /* the file has no suffix, and begins like a file of Intel HEX, S-records, UF2 or ELF */
    uint16_t vendor, product, release;
    enum { OUT_NONE, OUT_FILE, OUT_FOLDER, OUT_LINK } out; /* the file that exists at OUT; a link points to the file `other` */
};

extern struct firmware firmware;

/* Writes the files in the working folder. */
void firmware_make(void);

/* Checks the files after the program's end. Ends the run if one is not as this exit status requires. */
void firmware_check(int status);

#endif
