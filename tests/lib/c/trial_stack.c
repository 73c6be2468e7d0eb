/* Prints the stack depth of each call of dfu_trial.h, over a driver, as stack.c does for the device. The exit status is 1 if a call needs
 * more bytes of stack than the argument allows. */
#include "painted.h"
#include <stdio.h>

#include "dfu_device_memory.h"
#include "dfu_trial.h"

enum { UNIT = 256, SECTOR = 4096, TRIES = 3 };

static const struct dfu_config config = {DFU_VERSION, 0x0100, 1, 0x1209, 255, 256, 7, 0, 0, 0, 1, UNIT, SECTOR, 0, 0};
static uint8_t medium[DFU_MEDIUM_SIZE(UNIT, SECTOR, SECTOR)], out[256], block[DFU_BLOCK_SIZE(256, UNIT)], image[256];
static const struct dfu_driver driver = DFU_MEMORY_DRIVER(medium);
static struct dfu_device device = {
    .config = &config, .flash = medium, .size = sizeof medium, .block = block, .most = sizeof block, .driver = &driver};
static const struct dfu_trial trial = {.flash = medium, .size = sizeof medium, .driver = &driver, .tries = {UNIT, SECTOR, TRIES}};
static struct dfu_standing standing;
static struct dfu_place place;
static int32_t answer;

static int32_t serve(uint8_t kind, uint8_t request, uint8_t low, uint8_t high)
{
    const uint8_t setup[8] = {kind, request, 0, 0, 0, 0, low, high};
    return dfu_device_serve(&device, setup, image, out, sizeof out);
}

/* Downloads an image, which is then on trial. */
static int bring(void)
{
    return dfu_device_begin(&device) == 0 && serve(0x21, DFU_DNLOAD, 0, 1) == 0 && serve(0xa1, DFU_GETSTATUS, 6, 0) == 6
           && serve(0x21, DFU_DNLOAD, 0, 0) == 0 && serve(0xa1, DFU_GETSTATUS, 6, 0) == 6;
}

static int32_t transfer(uint8_t kind, uint8_t request)
{
    const uint8_t setup[8] = {kind, request, 0, 0, 0, 0, 64, 0};
    return dfu_trial_transfer(&trial, &device, setup);
}

static void *run(void *word)
{
    switch (*(int *)word) {
    case 1: answer = dfu_trial_look(&trial, &standing); break;
    case 2: answer = dfu_trial_accept(&trial, place.at); break;
    case 3: answer = dfu_trial_boot(&trial, &place); break;
    case 4: answer = dfu_trial_give_up(&trial); break;
    case 5: answer = transfer(0x21, DFU_DNLOAD); break;
    case 6: answer = transfer(0xa1, DFU_UPLOAD); break;
    case 7: answer = dfu_trial_boot_from(&trial, &standing, &place); break;
    default: answer = 0; break;
    }
    return word;
}

/* Prepares the flash for the call. For the transfer of an UPLOAD no start is left. */
static int prepare(int call)
{
    if (call < 3)
        return dfu_device_format(&device, image, sizeof image) == 0 && dfu_device_image(&device, &place) == 0;
    if (dfu_device_format(&device, image, sizeof image) != 0 || dfu_device_image(&device, &place) != 0
        || dfu_trial_accept(&trial, place.at) != 0 || !bring())
        return 0;
    for (int starts = 0; call == 6 && starts < TRIES; starts++)
        if (dfu_trial_boot(&trial, &place) != 0)
            return 0;
    return dfu_trial_look(&trial, &standing) == 0 && standing.on_trial == 1;
}

int main(int count, char **words)
{
    static const char *const names[] = {"nothing", "look", "accept", "boot", "give up", "transfer of a DNLOAD", "transfer of an UPLOAD",
                                        "boot by a look"};
    size_t empty = 0, most = 0, allowed = count > 1 ? (size_t)atol(words[1]) : 0;
    for (int call = 0; call < (int)(sizeof names / sizeof *names); call++) {
        if (!prepare(call))
            return 1;
        const size_t deep = touched(run, &call);
        if (call == 0)
            empty = deep;
        else
            printf("%-26s %6zu bytes of stack\n", names[call], deep - empty);
        most = deep - empty > most ? deep - empty : most;
        if (answer != 0 || (call > 3 && call < 7 && (dfu_trial_look(&trial, &standing) != 0 || standing.on_trial != 0)))
            return 1;
    }
    return most > allowed;
}
