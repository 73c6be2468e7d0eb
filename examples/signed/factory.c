/* SPDX-License-Identifier: MIT OR Apache-2.0 */
/* Builds the contents for the flash of a new board, which a device programmer writes: the bootloader, and the medium with a first image,
 * which is confirmed. The bootloader copies that image to the run area. */
#include <stdio.h>
#include <string.h>

#include "board.h"

static uint8_t flash[FLASH_SIZE], image[FLASH_SIZE];

static int read_file(const char *path, uint8_t *to, size_t room, size_t *length) {
    FILE *in = fopen(path, "rb");
    if (!in)
        return -1;
    *length = fread(to, 1, room, in);
    int is_wrong = ferror(in) || fgetc(in) != EOF;
    fclose(in);
    return is_wrong ? -1 : 0;
}

int main(int count, char **words) {
    size_t length;
    if (count != 4) {
        fprintf(stderr, "usage: factory BOOTLOADER IMAGE FLASH\n");
        return 2;
    }
    memset(flash, 0xff, sizeof flash);
    if (read_file(words[1], flash, MEDIUM, &length) != 0 || read_file(words[2], image, sizeof image, &length) != 0) {
        fprintf(stderr, "factory: a file can't be read, or is too large\n");
        return 1;
    }
    /* The first image is confirmed here, because no image runs on trial before one was confirmed. */
    int32_t refusal = dfu_trial_format_memory(&board_config, board_tries.tries, flash + MEDIUM, MEDIUM_SIZE, image, length);
    if (refusal != 0) {
        fprintf(stderr, "factory: refused %d\n", (int)refusal);
        return 1;
    }
    FILE *out = fopen(words[3], "wb");
    if (!out)
        return 1;
    size_t written = fwrite(flash, 1, sizeof flash, out);
    return fclose(out) != 0 || written != sizeof flash;
}
