/* A device that follows the table of USB DFU 1.1 (appendix A), with memory for each alternate setting. */
#ifndef FUZZ_MODEL_H
#define FUZZ_MODEL_H

#include <stdbool.h>
#include <stddef.h>
#include <stdint.h>

#define STALL (-1)
#define MOST_SETTINGS 3
#define MOST_IMAGE 8192

enum state {
    APP_IDLE, APP_DETACH, DFU_IDLE, DNLOAD_SYNC, DNBUSY, DNLOAD_IDLE, MANIFEST_SYNC, MANIFEST, WAIT_RESET, UPLOAD_IDLE, ERROR
};

struct image {
    uint32_t length;
    uint8_t bytes[MOST_IMAGE];
};

struct model {
    /* Settings of the device. */
    uint8_t attributes;            /* bmAttributes */
    uint16_t detach_ms, transfer;
    uint32_t busy_ms, manifest_ms, least, capacity;
    uint32_t fails;                /* writes fail at random: argument of chance() */
    bool is_patient;               /* the device answers GETSTATUS while it is busy, as some devices do */
    bool starts_itself;            /* the device leaves DFU mode by itself once the image is active */
    bool is_deaf_in_app;           /* the device stalls every request in run-time mode; takes_detach is an exception */
    bool takes_detach;             /* the device acknowledges DETACH in run-time mode even if is_deaf_in_app is set */
    /* Current state. */
    enum state state;
    uint8_t code;
    bool is_written, is_complete;  /* in dfuDNLOAD-SYNC: the block is written; in dfuMANIFEST-SYNC: the image is active */
    uint16_t number;
    uint32_t taken, sent, passed_ms, timer_ms, block_length;
    unsigned setting;
    uint8_t block[65536];
    struct image spare, images[MOST_SETTINGS];
};

/* Handles a request of the class. Returns the number of bytes of the answer, or STALL. `answer` has room for wLength bytes. */
int model_handle(struct model *model, const uint8_t setup[8], const uint8_t *body, uint8_t *answer);

void model_elapse(struct model *model, uint64_t ms);
void model_reset(struct model *model);
void model_power(struct model *model);

#endif
