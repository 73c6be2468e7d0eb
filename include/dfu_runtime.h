/* SPDX-License-Identifier: MIT OR Apache-2.0 */
/**
 * @file dfu_runtime.h
 * @brief The two states of run-time mode, appIDLE and appDETACH, for an application (USB DFU 1.1, sections 6.1.2.1 and 6.1.2.2, A.2.1
 *        and A.2.2). It needs no library. The application answers DETACH, and then enters its bootloader, which begins in dfuIDLE.
 *
 *     static struct dfu_runtime dfu = {.detach_ms = 1000, .interface_number = 2, .attributes = 7};   // as in its descriptors
 *
 *     a request of this class (bmRequestType 21h or A1h) to the interface:
 *                        n = dfu_runtime_handle(&dfu, setup, out)
 *                        n >= 0: answer with n bytes of out, or acknowledge if the host sends. Else stall endpoint 0
 *     the bus is reset:  if (dfu_runtime_usb_reset(&dfu)) set the bootloader's flag and restart
 *     time, in appDETACH:  if (dfu_runtime_elapse(&dfu, milliseconds)) leave the bus, set the flag and restart (bitWillDetach)
 *
 * To stall a request, send no bytes, and drop its data stage if the host sends one. The answers equal those of dfu_device.h in these two
 * states.
 */
#ifndef DFU_RUNTIME_H
#define DFU_RUNTIME_H

#include "dfu_core.h"

#if defined(__clang__) && defined(__has_warning)
#pragma clang diagnostic push
#if __has_warning("-Wunsafe-buffer-usage")
#pragma clang diagnostic ignored "-Wunsafe-buffer-usage"
#endif
#endif

#ifdef __cplusplus
extern "C" {
#endif

/** @brief State of an application in run-time mode. The application fills in the first three fields; the others begin as 0, which is
 *         appIDLE. */
struct dfu_runtime {
    uint16_t detach_ms;       /**< wDetachTimeOut, milliseconds */
    uint8_t interface_number; /**< bInterfaceNumber: a setup whose wIndex is another number is stalled */
    uint8_t attributes;       /**< bmAttributes, of which only DFU_WILL_DETACH is used */
    uint32_t state;           /**< private: DFU_STATE_APP_IDLE or DFU_STATE_APP_DETACH */
    uint32_t left;            /**< private: remaining milliseconds of appDETACH */
};

/** @brief Answers a setup.
 *  @param out room for 6 bytes
 *  @return number of bytes of out that are the answer, 0 for an acknowledgement or an empty answer; DFU_STALL */
static inline int32_t dfu_runtime_handle(struct dfu_runtime *r, const uint8_t setup[8], uint8_t out[6]) {
    const uint32_t timeout = DFU_TO(uint32_t, setup[2]) | DFU_TO(uint32_t, setup[3]) << 8;
    const int32_t length = setup[6] | setup[7] << 8;
    if ((setup[0] != 0x21 && setup[0] != 0xa1) || setup[4] != r->interface_number || setup[5] != 0)
        return DFU_STALL;
    if (setup[0] == 0xa1 && setup[1] == DFU_GETSTATUS) {
        out[0] = DFU_STATUS_OK;
        out[1] = out[2] = out[3] = out[5] = 0;
        out[4] = r->state & 1;
        return length < 6 ? length : 6;
    }
    if (setup[0] == 0xa1 && setup[1] == DFU_GETSTATE) {
        out[0] = r->state & 1;
        return length < 1 ? length : 1;
    }
    if (r->state == DFU_STATE_APP_IDLE && setup[0] == 0x21 && setup[1] == DFU_DETACH && length == 0) {
        r->state = DFU_STATE_APP_DETACH;
        r->left = timeout < r->detach_ms ? timeout : r->detach_ms;
        return 0;
    }
    r->state = DFU_STATE_APP_IDLE;
    return DFU_STALL;
}

/** @brief Reports that `ms` milliseconds have passed. The state appDETACH ends after its timeout, or with
 *         bitWillDetach at the first call whose `ms` is not 0.
 *  @return 1 if the application must leave the bus and enter the bootloader; else 0 */
static inline int dfu_runtime_elapse(struct dfu_runtime *r, uint32_t ms) {
    if (r->state != DFU_STATE_APP_DETACH || ms == 0)
        return 0;
    if ((r->attributes & DFU_WILL_DETACH) != 0) {
        r->state = DFU_STATE_APP_IDLE;
        return 1;
    }
    if (ms < r->left)
        r->left -= ms;
    else
        r->state = DFU_STATE_APP_IDLE;
    return 0;
}

/** @brief Reports a bus reset.
 *  @return 1 if the application must enter the bootloader; else 0 */
static inline int dfu_runtime_usb_reset(struct dfu_runtime *r) {
    const int is_leaving = r->state == DFU_STATE_APP_DETACH;
    r->state = DFU_STATE_APP_IDLE;
    return is_leaving;
}

#ifdef __cplusplus
}
#endif

#if defined(__clang__) && defined(__has_warning)
#pragma clang diagnostic pop
#endif

#endif
