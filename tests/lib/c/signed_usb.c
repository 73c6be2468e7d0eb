/* Turns the proved device on the stand-in's bus (tests/lib/usb) into one that accepts only signed images. It is linked with
 * --wrap=dfu_core_handle, and passes each close to signed_serve of examples/signed. SIGNED_KEY_FILE names a public key in DER. With
 * SIGNED_LATE each image is refused after the close, as by a check that takes longer than a transfer may. */
#include <sodium.h>
#include <stdio.h>
#include <stdlib.h>

#include "serve.h"

int32_t __real_dfu_core_handle(const struct dfu_config *config, struct dfu_record *record, uint8_t *block, size_t most,
                               const uint8_t *flash, size_t size, const uint8_t setup[8], const uint8_t *body, size_t length,
                               uint8_t *out, size_t room);
int32_t __wrap_dfu_core_handle(const struct dfu_config *config, struct dfu_record *record, uint8_t *block, size_t most,
                               const uint8_t *flash, size_t size, const uint8_t setup[8], const uint8_t *body, size_t length,
                               uint8_t *out, size_t room);

static uint8_t key[1][SIGNED_KEY];

static void read_key(void) {
    const char *name = getenv("SIGNED_KEY_FILE");
    FILE *file = name == NULL ? NULL : fopen(name, "rb");
    if (sodium_init() < 0 || file == NULL || fread(key, 1, SIGNED_KEY, file) != SIGNED_KEY) {
        fprintf(stderr, "signed_usb: no key\n");
        abort();
    }
    fclose(file);
}

int32_t __wrap_dfu_core_handle(const struct dfu_config *config, struct dfu_record *record, uint8_t *block, size_t most,
                               const uint8_t *flash, size_t size, const uint8_t setup[8], const uint8_t *body, size_t length,
                               uint8_t *out, size_t room) {
    static int is_within;
    if (is_within || setup[0] != 0x21 || setup[1] != DFU_DNLOAD || setup[6] != 0 || setup[7] != 0)
        return __real_dfu_core_handle(config, record, block, most, flash, size, setup, body, length, out, room);
    if (getenv("SIGNED_LATE") != NULL) {
        const int32_t closed = __real_dfu_core_handle(config, record, block, most, flash, size, setup, body, length, out, room);
        return closed == 0 ? dfu_core_refuse(config, record, DFU_STATUS_ERR_FILE) : closed;
    }
    /* (The record is in the struct dfu_device of the model, which has a driver.) */
    struct signed_board board = {.device = (struct dfu_device *)(void *)((char *)record - offsetof(struct dfu_device, record)),
                                 .rules = {(const uint8_t (*)[SIGNED_KEY])key, 1, 7, 0}};
    read_key();
    is_within = 1;
    const int32_t n = signed_serve(&board, setup, body, out, room);
    is_within = 0;
    return n;
}
