/* SPDX-License-Identifier: MIT OR Apache-2.0 */
/* The lives of the board, one after another. Each begins with the old image, receives the new one, and ends when an image runs again. The
 * lives cut off each operation of the update and of its copy, in each of four ways, and after each such cut also each later operation. */
#include <string.h>

#include "board.h"

enum { MAGIC = 0x74776f31 };

static int is_whole(const uint8_t *file, uint32_t length, const struct dfu_place *place) {
    return place->length == length && memcmp((const uint8_t *)FLASH + place->at, file, length) == 0;
}

/* Writes a number in decimal over the spaces of a text, so that its last digit is just before `end`. */
static void write_number(char *end, uint32_t number) {
    do
        *--end = (char)('0' + number % 10);
    while (number /= 10);
}

static void all_done(void) {
    static char text[] =
        "      lives,       of them with a second cut: old      , new      ;       copies, of at most     operations;"
        "       downloads refused\n      passed, 0 failed";
    const uint32_t lives = world.olds + world.news;
    write_number(text + 5, lives);
    write_number(text + 18, world.seconds);
    write_number(text + 54, world.olds);
    write_number(text + 65, world.news);
    write_number(text + 72, world.copies);
    write_number(text + 95, world.most);
    write_number(text + 114, world.refusals);
    write_number(text + 138, lives);
    board_stop(text, 0);
}

/* Selects the cuts of the next life. */
static void choose(void) {
    if (world.cut[0] == 0) {
        world.all = world.operations;
        world.cut[0] = 1;
        return;
    }
    if (world.cut[1] == 0) {
        world.then = world.operations;
        world.cut[1] = world.cut[0];
        world.tear[1] = TEARS - 1;
    }
    world.tear[1] = world.tear[1] + 1;
    if (world.tear[1] == TEARS) {
        world.tear[1] = 0;
        world.cut[1] = world.cut[1] + 1;
    }
    if (world.cut[1] <= world.then)
        return;
    world.cut[1] = 0;
    world.tear[0] = world.tear[0] + 1;
    if (world.tear[0] == TEARS) {
        world.tear[0] = 0;
        world.cut[0] = world.cut[0] + 1;
    }
    if (world.cut[0] > world.all)
        all_done();
}

static void end_life(void) {
    if (world.cut[0] == 0 && world.ran != NEW)
        board_stop("an update without a cut is lost", 1);
    if (world.ran == NEW)
        world.news = world.news + 1;
    else
        world.olds = world.olds + 1;
    if (world.cut[1] != 0)
        world.seconds = world.seconds + 1;
    choose();
    world.phase = PHASE_NEW;
}

void lives_begin(struct dfu_device *device) {
    if (world.magic != MAGIC) {
        memset((void *)&world, 0, sizeof world);
        world.magic = MAGIC;
        world.old_length = OLD_LENGTH;
        world.new_length = NEW_LENGTH;
    }
    if (world.phase == PHASE_ENDED)
        end_life();
    if (world.phase != PHASE_NEW)
        return;
    /* A new life begins with a formatted flash that holds the old image. */
    const uint32_t first = world.cut[0], second = world.cut[1];
    world.cut[0] = world.cut[1] = 0;
    memset((uint8_t *)FLASH, 0xff, SIZE);
    if (dfu_device_format(device, OLD_FILE, world.old_length) != 0)
        board_stop("no format", 1);
    world.cut[0] = first;
    world.cut[1] = second;
    world.operations = world.has_taken = world.ran = 0;
    world.phase = PHASE_RUNS;
}

/* Checks the image to start: it is the whole old image or the whole new one, in the first slot. */
void lives_start(uint32_t before, const struct dfu_place *place) {
    const uint32_t count = world.operations - before;
    if (place->at != PLACE - FLASH || (!is_whole(OLD_FILE, world.old_length, place) && !is_whole(NEW_FILE, world.new_length, place)))
        board_stop("what starts is no whole image", 1);
    if (count == 0)
        return;
    world.copies = world.copies + 1;
    if (count > world.most)
        world.most = count;
}
