#include "check.h"
#include "books.h"
#include "bus.h"
#include "clock.h"
#include "firmware.h"
#include "temper.h"
#include "words.h"

#include <stdio.h>
#include <string.h>
#include <unistd.h>

#define MOST_STALLED_RESETS 3
#define STOP_MS 60000 /* maximum time from a signal to the end of a session: a request may take 5 s, and there may be several */

/* The selected device: that of the first request, or of the last request in DFU mode; and its numbers in each mode. */
static struct {
    struct board *board;
    char path[64];
    int64_t began_ms;
    bool has_mode[2], has_tried, has_downloaded;
    struct {
        uint16_t vendor, product;
        uint8_t interface, alternate;
    } modes[2];
    unsigned requests, resets, setting;
} chosen;

static bool has_ids(const struct face *face, uint16_t vendor, uint16_t product)
{
    return (vendor == 0xffff || vendor == face->vendor) && (product == 0xffff || product == face->product);
}

/* Keeps the device of the first request, and checks that the command line selects it. */
static void check_choice(const struct libusb_device *device)
{
    const struct face *face = &device->face;
    chosen.board = device->board;
    chosen.began_ms = clock_now();
    place_path(&device->place, chosen.path);
    if (!asked.is_sound)
        return;
    if (asked.has_ids && !has_ids(face, asked.vendor, asked.product)
        && !(asked.has_pair && has_ids(face, asked.dfu_vendor, asked.dfu_product)))
        fault("a request of DFU goes to %04x:%04x", face->vendor, face->product);
    if (temper.is_fair && asked.serial[0] != '\0' && !face_says(face, face->serial, asked.serial))
        fault("a request of DFU goes to a device with another serial number");
}

static void check_place(const struct libusb_device *device)
{
    char path[64];
    bool is_elsewhere;
    place_path(&device->place, path);
    if (chosen.board == NULL)
        check_choice(device);
    is_elsewhere = strcmp(path, chosen.path) != 0;
    if (asked.is_sound && asked.path[0] != '\0' && strcmp(path, asked.path) != 0)
        fault("a request of DFU goes to a device at %s", path);
    if (asked.is_sound && is_elsewhere && (asked.serial[0] == '\0' || asked.path[0] != '\0'))
        fault("a request of DFU goes to another device, at %s", path);
}

static void check_setting(const struct libusb_device *device, uint16_t interface, const struct setting *setting)
{
    if (!asked.is_sound || setting->protocol != 2)
        return;
    if (asked.interface >= 0 && asked.interface != interface)
        fault("a request of DFU goes to interface %u", interface);
    if (asked.alternate >= 0 && asked.alternate != setting->alternate)
        fault("a request of DFU goes to setting %u", setting->alternate);
    if (temper.is_fair && asked.name[0] != '\0' && !face_says(&device->face, setting->name, asked.name))
        fault("a request of DFU goes to setting %u, which has another name", setting->alternate);
}

/* Checks that the device in a mode is always the same. After a block was sent, or may have been, a device in run-time mode may run another
 * image. */
static void check_again(const struct libusb_device *device, uint16_t interface, const struct setting *setting)
{
    int mode = setting->protocol == 2;
    if (!chosen.has_mode[mode]) {
        chosen.has_mode[mode] = true;
        chosen.modes[mode].vendor = device->face.vendor;
        chosen.modes[mode].product = device->face.product;
        chosen.modes[mode].interface = (uint8_t)interface;
        chosen.modes[mode].alternate = setting->alternate;
    }
    if (mode == 0 && chosen.has_tried)
        return;
    if (chosen.modes[mode].vendor != device->face.vendor || chosen.modes[mode].product != device->face.product)
        fault("a request of DFU goes to %04x:%04x, another device than before", device->face.vendor, device->face.product);
    if (chosen.modes[mode].interface != interface || chosen.modes[mode].alternate != setting->alternate)
        fault("a request of DFU goes to interface %u in setting %u, others than before", interface, setting->alternate);
}

void check_request(const struct libusb_device_handle *handle, const uint8_t setup[8], uint16_t index)
{
    const struct setting *setting;
    chosen.has_tried = chosen.has_tried || (setup[0] == 0x21 && setup[1] == 1);
    if (chosen.board == NULL)
        check_choice(handle->device);
    if (!handle_is_there(handle))
        return;
    if ((setup[0] & 0x7f) != 0x21 || setup[1] > 6 || (asked.is_sound && asked.job == JOB_DETACH && setup[1] != 0))
        fault("the request %02x of type %02x is none of DFU", setup[1], setup[0]);
    if (index > 255 || !handle->claimed[index])
        fault("a request of DFU goes to interface %u, which isn't claimed", index);
    if (asked.is_sound && asked.job == JOB_DOWNLOAD && firmware.has_format)
        fault("a request of DFU is sent for a file that is no image");
    setting = face_setting(&handle->device->face, index, handle->alternates[index]);
    if (setting == NULL)
        fault("a request of DFU goes to interface %u in setting %u, where there is no DFU", index, handle->alternates[index]);
    check_place(handle->device);
    check_setting(handle->device, index, setting);
    check_again(handle->device, index, setting);
    chosen.requests++;
    if (handle->device->mode == UPGRADE) {
        chosen.board = handle->device->board;
        chosen.setting = handle->device->board->model.setting;
    }
    chosen.has_downloaded = chosen.has_downloaded || (setup[0] == 0x21 && setup[1] == 1);
}

void check_reset(const struct libusb_device_handle *handle)
{
    check_place(handle->device);
    chosen.resets++;
}

void check_stalled(struct board *board)
{
    if (board->was_stalled && ++board->stalled_resets > MOST_STALLED_RESETS && temper.is_fair)
        fault("a device that stalls in run-time mode is reset %u times", board->stalled_resets);
}

bool check_has_downloaded(void)
{
    return chosen.has_tried;
}

static bool is_in_place(void)
{
    const struct image *image;
    if (chosen.board == NULL)
        return false;
    image = &chosen.board->model.images[chosen.setting];
    return image->length == firmware.payload && memcmp(image->bytes, firmware.bytes, image->length) == 0;
}

static void check_image(int status)
{
    if (!temper.is_fair || !asked.is_sound || asked.job != JOB_DOWNLOAD || asked.is_dry)
        return;
    if (status == 0 && !is_in_place())
        fault("the status is 0, and the device doesn't have the image");
    if (status == 0 && firmware.is_raw && (!asked.has_ids || asked.vendor == 0xffff || asked.product == 0xffff))
        fault("a raw image was sent to a device that isn't named");
    if (status == 9 && is_in_place())
        fault("the status is 9, and the device has the image");
    outcome->is_placed = status == 0;
}

static void check_detach(int status)
{
    bool is_steady = temper.is_fair && temper.leaves == 0 && temper.strays == 0;
    if (is_steady && asked.is_sound && asked.job == JOB_DETACH && status == 0 && chosen.board != NULL && chosen.board->mode != UPGRADE)
        fault("the status is 0, and the device isn't in DFU mode");
}

static void check_upload(int status)
{
    static uint8_t bytes[200000];
    const struct image *image;
    FILE *out;
    size_t count;
    if (!temper.is_fair || !asked.is_sound || asked.job != JOB_UPLOAD || asked.is_dry || status != 0)
        return;
    out = fopen(OUT_NAME, "rb");
    if (out == NULL || chosen.board == NULL)
        fault("the status is 0, and there is no upload");
    image = &chosen.board->model.images[chosen.setting];
    count = fread(bytes, 1, sizeof bytes, out);
    fclose(out);
    if (count != image->length || memcmp(bytes, image->bytes, count) != 0)
        fault("the status is 0, and OUT isn't the image of the device");
}

/* Checks that the program ends soon after a signal, and within its --timeout and --wait. */
static void check_time(void)
{
    int64_t most_ms = STOP_MS + (int64_t)asked.timeout * 1000;
    if (!temper.is_fair || !asked.is_sound)
        return;
    if (asked.timeout > 0 && chosen.board != NULL && clock_now() - chosen.began_ms > most_ms)
        fault("the program ends %lld ms after it began, in spite of --timeout", (long long)(clock_now() - chosen.began_ms));
    if (chosen.board == NULL && (!asked.is_patient || asked.wait > 0) && clock_now() > STOP_MS + (int64_t)asked.wait * 1000)
        fault("the program waits %lld ms for a device", (long long)clock_now());
    if (signal_came() >= 0 && clock_now() - signal_came() > STOP_MS)
        fault("the program ends %lld ms after a signal", (long long)(clock_now() - signal_came()));
}

void check_status(int status)
{
    bool is_silent = asked.is_sound && (asked.job == JOB_LIST || asked.is_dry);
    if (status < 0 || status > 15)
        fault("the status is %d", status);
    if (status == 14)
        fault("the program says that it has a mistake");
    /* Some options can't be combined with a DfuSe file. */
    if (asked.is_sound && status == 2 && !firmware.is_dfuse)
        fault("words are refused that are sound");
    if (is_silent && chosen.requests + chosen.resets > 0)
        fault("requests are sent for a list or a dry run");
    if ((status == 1 || status == 2 || status == 4 || status == 5) && chosen.has_downloaded)
        fault("a block was sent, and the status is %d", status);
    check_time();
    check_image(status);
    check_upload(status);
    check_detach(status);
}
