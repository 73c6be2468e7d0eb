/* SPDX-License-Identifier: MIT OR Apache-2.0 */
/* Recognizes the format of files without a DFU suffix, so that a flashing tool doesn't send the text of, say, an Intel HEX file as if it
 * were the image. The code is dfu_host.c, and the rules of dfu_host.h apply.
 *
 *     struct dfu_look look;
 *     if (dfu_host_file(file, length, &f) != 0 && dfu_image_look(file, length, name, strlen(name), &look) != DFU_LOOKS_RAW)
 *         don't send it as it is, but report its format; for DFU_LOOKS_IHEX to DFU_LOOKS_ELF `dfu add --format auto` makes a DFU file of it
 *
 * Proved: dfu_image_look answers as described here, for any file and any name. */
#ifndef DFU_IMAGE_H
#define DFU_IMAGE_H

#include "dfu_host.h"

#ifdef __cplusplus
extern "C" {
#endif

/* Kinds of files without a DFU suffix. The first that applies counts, in the order DFU_LOOKS_DFUSE, DFU_LOOKS_IHEX to DFU_LOOKS_ELF,
 * DFU_LOOKS_ZIP, DFU_LOOKS_GZIP, DFU_LOOKS_TEXT, DFU_LOOKS_NAMED, and else DFU_LOOKS_RAW. An empty file is one of the last two. Text is
 * UTF-8 without control characters other than tab, line feed, form feed and carriage return. Blanks are spaces, tabs and carriage
 * returns. */
enum {
    DFU_LOOKS_RAW = 0,   /* the file may be a raw image: none of the others applies */
    DFU_LOOKS_IHEX = 1,  /* after an optional byte order mark, blanks and empty lines the file begins with ':' and two hexadecimal digits;
                          * or with ':', and the whole file is text */
    DFU_LOOKS_SREC = 2,  /* after the same prefix the file begins with 'S', a digit and two hexadecimal digits */
    DFU_LOOKS_UF2 = 3,   /* the file begins with "UF2\n" */
    DFU_LOOKS_ELF = 4,   /* the file begins with 7Fh and "ELF" */
    DFU_LOOKS_DFUSE = 5, /* the file begins with "DfuSe" */
    DFU_LOOKS_ZIP = 6,   /* the file begins with "PK", 03h and 04h */
    DFU_LOOKS_GZIP = 7,  /* the file begins with 1Fh and 8Bh */
    DFU_LOOKS_TEXT = 8,  /* the whole file is text, of none of these formats */
    DFU_LOOKS_NAMED = 9  /* the bytes show no format, but the name has the ending of one */
};

/* Formats by the ending of a file's name, in upper or lower case. A name that consists of its ending, such as ".hex", counts too. */
enum {
    DFU_NAMED_NONE = 0, /* no known ending */
    DFU_NAMED_IHEX = 1, /* .hex, .ihex, .ihx, .mcs */
    DFU_NAMED_SREC = 2, /* .s19, .s28, .s37, .srec, .mot */
    DFU_NAMED_UF2 = 3,  /* .uf2 */
    DFU_NAMED_ELF = 4,  /* .elf, .axf */
    DFU_NAMED_DFU = 5   /* .dfu */
};

/* Result of dfu_image_look. */
struct dfu_look {
    uint32_t looks;                /* DFU_LOOKS_.. */
    uint32_t named;                /* DFU_NAMED_..: the format of the name's ending, whatever the bytes are */
    DFU_ALIGNED_8 uint64_t line;   /* DFU_LOOKS_IHEX and DFU_LOOKS_SREC: the line, from 1, of the first byte that can't be part of a record;
                                  * 0 for other formats, or if there is no such byte */
    DFU_ALIGNED_8 uint64_t column; /* the column of that byte, from 1, in bytes; a byte order mark isn't counted */
};

/* Recognizes the format of a file from its bytes and its name, which is a path or the last part of one. Returns look->looks, and never
 * refuses. A line of records is blanks, the mark (':' of DFU_LOOKS_IHEX, 'S' of DFU_LOOKS_SREC), hexadecimal digits, and blanks. */
uint32_t dfu_image_look(const uint8_t *file, size_t length, const uint8_t *name, size_t name_length, struct dfu_look *look);

#ifdef __cplusplus
}
#endif

#endif
