/* A host of dfu_host.h, which carries out one action at a time. The bootloader or the application answers its requests. */
#include "dfu_host.h"
#include "listings.h"
#include <stdlib.h>
#include <string.h>

static struct dfu_session session;
static uint8_t file[MOST_PAYLOAD + 16], kept[1];
static size_t length, payload;

static uint32_t register_of(const uint8_t *bytes, size_t n)
{
    uint32_t crc = 0xffffffffu;
    for (size_t i = 0; i < n; i++) {
        crc ^= bytes[i];
        for (int bit = 0; bit < 8; bit++)
            crc = crc & 1 ? crc >> 1 ^ 0xedb88320u : crc >> 1;
    }
    return crc;
}

void host_begins(const uint8_t *image, size_t n, const uint8_t descriptor[9], int verifies)
{
    static const uint8_t suffix[12] = {0xff, 0xff, 0xff, 0xff, 0xff, 0xff, 0x00, 0x01, 'U', 'F', 'D', 16};
    static const struct dfu_ids ids = {0x0100, 0x0001, 0x1209};
    memcpy(file, image, n);
    memcpy(file + n, suffix, sizeof suffix);
    const uint32_t crc = register_of(file, n + sizeof suffix);
    for (int i = 0; i < 4; i++)
        file[n + sizeof suffix + (size_t)i] = (uint8_t)(crc >> 8 * i);
    length = n + 16;
    payload = n;
    if ((verifies ? dfu_host_verified : dfu_host_download)(&session, file, length, descriptor, 9, &ids, 100000, 9) != 0)
        abort();
}

uint32_t host_acts(void)
{
    struct dfu_action action;
    uint8_t answer[1024];
    uint32_t seen = DFU_SEEN_WAIT;
    size_t count = 0;
    if (dfu_host_next(&session, file, payload, &action) != 0)
        abort();
    if (action.what == DFU_DONE)
        return action.value;
    if (action.what == DFU_RESET) {
        bus_is_reset();
        seen = DFU_SEEN_RESET;
    } else if (action.what == DFU_SEND) {
        const int32_t n = bus_carries(action.setup, file + action.from, (size_t)action.length, answer);
        seen = n < 0 ? DFU_SEEN_STALL : (action.setup[0] & 0x80) != 0 ? DFU_SEEN_BYTES : DFU_SEEN_ACK;
        count = n < 0 ? 0 : (size_t)n;
    } else {
        bus_waits(action.value);
    }
    if (dfu_host_take(&session, file, payload, kept, 0, seen, answer, seen == DFU_SEEN_BYTES ? count : 0) != 0)
        abort();
    return 0;
}

void host_hears_restart(void)
{
    if (dfu_host_take(&session, file, payload, kept, 0, DFU_SEEN_RESTART, kept, 0) != 0)
        abort();
}

int is_in_place(uint32_t report)
{
    return report == DFU_INSTALLED || report == DFU_VERIFIED;
}
