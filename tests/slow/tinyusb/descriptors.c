/* The configuration of the device, and its descriptors, built with those of examples/tinyusb. */
#include "board.h"
#include "dfu_tinyusb_descriptors.h"
#include <stdlib.h>
#include <string.h>

struct dfu_config config;

unsigned setting(const char *name, int base, unsigned otherwise)
{
    const char *value = getenv(name);
    return value != NULL ? (unsigned)strtoul(value, NULL, base) : otherwise;
}

void board_set_up(void)
{
    config = (struct dfu_config){.version = DFU_VERSION, .device = 0x0100, .product = 0x0001, .vendor = 0x1209, .detach_ms = 1000};
    config.transfer = (uint16_t)setting("TRANSFER", 10, DFU_TINYUSB_TRANSFER);
    config.attributes = (uint8_t)setting("ATTRIBUTES", 16, 0x0f);
    config.interface_number = (uint8_t)setting("INTERFACE", 10, 0);
    config.busy_ms = setting("BUSY", 10, 60);
    config.manifest_ms = setting("MANIFEST", 10, (config.attributes & DFU_MANIFESTATION_TOLERANT) != 0 ? 0 : 20);
    config.least = 1;
    config.unit = UNIT;
    config.sector = SECTOR;
}

static uint8_t const microsoft[] = {DFU_TINYUSB_MICROSOFT_DEVICE};
static uint8_t const page[] = {
    DFU_TINYUSB_PAGE(21), 'e', 'x', 'a', 'm', 'p', 'l', 'e', '.', 'o', 'r', 'g', '/', 'd', 'f', 'u', '/', 'f', 'l', 'a', 's', 'h'};

uint8_t const *tud_descriptor_bos_cb(void)
{
    static uint8_t const bos[] = {DFU_TINYUSB_BOS(sizeof microsoft)};
    return bos;
}

bool tud_vendor_control_xfer_cb(uint8_t rhport, uint8_t stage, tusb_control_request_t const *request)
{
    return dfu_tinyusb_vendor(rhport, stage, request, microsoft, page);
}

uint8_t const *tud_descriptor_device_cb(void)
{
    static uint8_t const descriptor[] = {18, TUSB_DESC_DEVICE, 0x10, 2, 0, 0, 0, 64, 0x09, 0x12, 0x01, 0x00, 0x00, 0x01, 1, 2, 3, 1};
    return descriptor;
}

uint8_t const *tud_descriptor_device_qualifier_cb(void)
{
    static uint8_t const descriptor[] = {10, TUSB_DESC_DEVICE_QUALIFIER, 0x10, 2, 0, 0, 0, 64, 1, 0};
    return descriptor;
}

/* With INTERFACE above 0 there is also an interface 0, of a vendor's class and without endpoints. */
static uint8_t const *configuration(uint8_t type)
{
    enum { HEAD = TUD_CONFIG_DESC_LEN, OTHER = 9, OURS = DFU_TINYUSB_INTERFACE_LENGTH };
    static uint8_t descriptor[HEAD + OTHER + OURS];
    const uint8_t others = config.interface_number > 0 ? 1 : 0, length = (uint8_t)(HEAD + others * OTHER + OURS);
    uint8_t const head[HEAD] = {TUD_CONFIG_DESCRIPTOR(1, (uint8_t)(1 + others), 0, length, TUSB_DESC_CONFIG_ATT_SELF_POWERED, 100)};
    uint8_t const other[OTHER] = {9, TUSB_DESC_INTERFACE, 0, 0, 0, TUSB_CLASS_VENDOR_SPECIFIC, 0, 0, 0};
    uint8_t const ours[OURS] = {
        DFU_TINYUSB_INTERFACE(config.interface_number, 4, board_protocol(), config.attributes, config.detach_ms, config.transfer)};
    memcpy(descriptor, head, HEAD);
    descriptor[1] = type;
    memcpy(descriptor + HEAD, other, OTHER);
    memcpy(descriptor + HEAD + others * OTHER, ours, OURS);
    return descriptor;
}

uint8_t const *tud_descriptor_configuration_cb(uint8_t index)
{
    return index == 0 ? configuration(TUSB_DESC_CONFIGURATION) : NULL;
}

uint8_t const *tud_descriptor_other_speed_configuration_cb(uint8_t index)
{
    return index == 0 ? configuration(TUSB_DESC_OTHER_SPEED_CONFIG) : NULL;
}

uint16_t const *tud_descriptor_string_cb(uint8_t index, uint16_t language)
{
    static const char *const words[] = {"", "Fustrelan", "Board", "T1", "Firmware"};
    static uint16_t descriptor[16] = {0x0304, 0x0409};
    const char *word = index < 5 ? words[index] : "";
    size_t length = strlen(word);
    (void)language;
    if (index > 4)
        return NULL;
    descriptor[0] = (uint16_t)(0x0300 | (index == 0 ? 4 : 2 + 2 * length));
    descriptor[1] = 0x0409;
    for (size_t at = 0; at < length; at++)
        descriptor[1 + at] = (uint8_t)word[at];
    return descriptor;
}
