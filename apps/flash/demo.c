/* SPDX-License-Identifier: MIT OR Apache-2.0 */
/* Steps of the demo. Each step runs the code for real boards (one_device.c) on the simulated board. It then checks the exit status, and
 * after a download the board's image. */
#include "demo.h"
#include "advice.h"
#include "demo_board.h"
#include "demo_usb.h"
#include "image.h"
#include "one_device.h"
#include "record.h"
#include "messages.h"
#include "session.h"
#include "standard.h"
#include "status.h"
#include "terminal.h"

#include <stdio.h>
#include <stdlib.h>
#include <string.h>

#define OWN_BYTES 3000
#define AWAY_MS 300 /* time to wait for the board that was pulled out, which doesn't return */

/* Identifiers for tests, from pid.codes. */
#define OWN_VENDOR 0x1209
#define OWN_PRODUCT 0x0001

static struct {
    struct words words; /* options of each step */
    struct image file, other;
    int status; /* STATUS_DONE until a step fails */
} demo;

/* Announces a step, unless an earlier one failed. */
static void tell(const char *what)
{
    if (!demo.words.quiet && demo.status == STATUS_DONE)
        fprintf(stderr, "%s%s\n", say_mark, what);
}

/* Makes an image for a demo without FILE, with pseudo-random bytes so that it doesn't look like text. */
static int32_t make_own(struct image *image)
{
    uint8_t bytes[OWN_BYTES];
    uint32_t state = 1;
    for (size_t at = 0; at < sizeof bytes; at++) {
        state = state * 1664525 + 1013904223;
        bytes[at] = (uint8_t)(state >> 24);
    }
    return image_make(image, bytes, sizeof bytes, OWN_VENDOR, OWN_PRODUCT);
}

/* Makes a second image for the same board by inverting each bit of the first. */
static int32_t make_other(struct image *image)
{
    uint8_t *bytes = malloc(demo.file.payload + 1);
    int32_t refusal = IMAGE_UNREAD;
    for (size_t at = 0; bytes != NULL && at < demo.file.payload; at++)
        bytes[at] = (uint8_t)~demo.file.bytes[at];
    if (bytes != NULL)
        refusal = image_make(image, bytes, demo.file.payload, demo.words.vendor, demo.words.product);
    free(bytes);
    return refusal;
}

/* Reads FILE and takes the board's identifiers from its suffix, or the demo's own where the suffix has none. */
static int32_t read_file(const struct words *words)
{
    int32_t refusal;
    demo.words.has_ids = true;
    demo.words.vendor = OWN_VENDOR;
    demo.words.product = OWN_PRODUCT;
    if (words->file == NULL)
        return make_own(&demo.file);
    demo.words.file = words->file;
    demo.words.quiet = true;
    refusal = image_read(&demo.file, &demo.words);
    demo.words.quiet = words->quiet;
    if (refusal == 0 && demo.file.is_dfuse)
        return REFUSED_NOT_DFUSE;
    if (refusal == 0 && demo.file.vendor != ANY_ID)
        demo.words.vendor = demo.file.vendor;
    if (refusal == 0 && demo.file.product != ANY_ID)
        demo.words.product = demo.file.product;
    return refusal == 0 && demo.file.payload == 0 ? DFU_EMPTY_PAYLOAD : refusal;
}

/* Runs one step with its own options. The demo fails unless the run ends with the status `wanted` and, if `stands` isn't NULL, the board
 * would then start the image `stands`. */
static void step(enum job job, struct image *image, int wanted, const struct image *stands)
{
    bool has_bar = !demo.words.quiet && terminal_is(stderr);
    struct words words = demo.words;
    struct image nothing = {0};
    size_t length;
    const uint8_t *bytes;
    int status;
    if (demo.status != STATUS_DONE)
        return;
    words.job = job;
    advice_forget();
    status = one_run(&words, image != NULL ? image : &nothing, has_bar ? PROGRESS_BAR : PROGRESS_SILENT);
    bytes = demo_image(&length);
    if (status == STATUS_FILE)
        demo.status = status;
    else if (status != wanted || (stands != NULL && (length != stands->payload || memcmp(bytes, stands->bytes, length) != 0)))
        demo.status = STATUS_BROKEN;
}

/* Runs the steps in order. After a failure the remaining steps do nothing. */
static void show(void)
{
    unsigned middle = (unsigned)(demo.file.payload / demo_block()) / 2;
    tell("1. the boards that are there, as by --list");
    step(JOB_LIST, NULL, STATUS_DONE, NULL);
    tell("2. the file is flashed");
    step(JOB_DOWNLOAD, &demo.file, STATUS_DONE, &demo.file);
    tell("3. again, and the board's answer to a block is lost");
    demo_plan(DEMO_ANSWER, middle);
    step(JOB_DOWNLOAD, &demo.file, STATUS_DONE, &demo.file);
    tell("4. another image, and the plug is pulled in the middle");
    demo_plan(DEMO_PLUG, middle);
    step(JOB_DOWNLOAD, &demo.other, STATUS_GONE, &demo.file);
    tell("the board still has the image of before, whole; the plug is put in again");
    demo_plug();
    tell("5. the other image is flashed again");
    step(JOB_DOWNLOAD, &demo.other, STATUS_DONE, &demo.other);
    tell("that is all; no board was touched, and with one you leave --demo out");
}

static int say_refused(const struct words *words, int32_t refusal)
{
    if (refusal == IMAGE_WORDS)
        return STATUS_WORDS;
    if (refusal == IMAGE_UNREAD)
        return record_none(STATUS_FILE, words->json);
    return record_refused(refusal, words->json) ? STATUS_REFUSED : STATUS_FILE;
}

int demo_run(const struct words *words)
{
    int32_t refusal;
    demo.words = *words;
    demo.words.away_ms = AWAY_MS;
    say_mark = "simulated: ";
    refusal = read_file(words);
    if (refusal == 0)
        refusal = make_other(&demo.other);
    if (refusal != 0)
        return say_refused(words, refusal);
    if (!demo_make(demo.words.vendor, demo.words.product, demo.file.payload)) {
        fputs("dfu-flash: there is no memory for a simulated board\n", stderr);
        return record_none(STATUS_FILE, words->json);
    }
    transport_use(&demo_transport);
    show();
    if (demo.status == STATUS_BROKEN)
        fputs("dfu-flash: the demo went wrong, which is a mistake of this program\n", stderr);
    return demo.status;
}
