/* SPDX-License-Identifier: MIT OR Apache-2.0 */
/* Builds the contents for the flash of a new board, which a device programmer writes: the bootloader, the medium with a first image, and
 * the run area with the same image. */
#include <stdio.h>
#include <string.h>

#include "board.h"
#include "dfu_device_memory.h"
#include "dfu_install.h"
#include "dfu_trial.h"

static uint8_t flash[FLASH_SIZE], image[FLASH_SIZE];

static int read_file(const char *path, uint8_t *to, size_t room, size_t *length) {
    FILE *in = fopen(path, "rb");
    if (!in)
        return -1;
    *length = fread(to, 1, room, in);
    int is_wrong = ferror(in) || fgetc(in) != EOF;
    fclose(in);
    return is_wrong ? -1 : 0;
}

int main(int count, char **words) {
    size_t length;
    if (count != 4) {
        fprintf(stderr, "usage: factory BOOTLOADER IMAGE FLASH\n");
        return 2;
    }
    memset(flash, 0xff, sizeof flash);
    if (read_file(words[1], flash, MEDIUM, &length) != 0 || read_file(words[2], image, sizeof image, &length) != 0) {
        fprintf(stderr, "factory: a file can't be read, or is too large\n");
        return 1;
    }
    const struct dfu_driver driver = DFU_MEMORY_DRIVER(flash + RUN);
    struct dfu_install install = {.run = flash + RUN, .size = CAPACITY, .area = {PAGE, DFU_NOWHERE}, .driver = &driver};
    /* With trials the first image is confirmed here, because only then the next one runs on trial. */
    int32_t refusal = TRIES > 0 ? dfu_trial_format_memory(&board_config, TRIES, flash + MEDIUM, MEDIUM_SIZE, image, length)
                                : dfu_memory_format(&board_config, flash + MEDIUM, MEDIUM_SIZE, image, length);
    if (refusal == 0)
        refusal = dfu_install_settle(&install, image, length);
    if (refusal != 0) {
        fprintf(stderr, "factory: refused %d\n", (int)refusal);
        return 1;
    }
    FILE *out = fopen(words[3], "wb");
    if (!out)
        return 1;
    size_t written = fwrite(flash, 1, sizeof flash, out);
    return fclose(out) != 0 || written != sizeof flash;
}
