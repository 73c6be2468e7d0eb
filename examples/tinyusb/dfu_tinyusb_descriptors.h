/* SPDX-License-Identifier: MIT OR Apache-2.0 */
/**
 * @file dfu_tinyusb_descriptors.h
 * @brief Descriptors for a program with dfu_tinyusb.h or dfu_tinyusb_runtime.h: the DFU interface, and a BOS descriptor (bcdUSB of at least
 *        0x0201), by which Windows binds WinUSB without an INF file, and Chromium shows a landing page.
 *
 *     the configuration, in run-time mode (1) and in DFU mode (2), as dfu_tinyusb_protocol returns:
 *         static uint8_t const is_in_dfu_mode[] = {
 *             TUD_CONFIG_DESCRIPTOR(1, 1, 0, TUD_CONFIG_DESC_LEN + DFU_TINYUSB_INTERFACE_LENGTH, 0, 100),
 *             DFU_TINYUSB_INTERFACE(0, 4, 2, attributes, detach_ms, transfer)};
 *     a device with no other interface:
 *         static uint8_t const microsoft[] = {DFU_TINYUSB_MICROSOFT_DEVICE};
 *         static uint8_t const bos[] = {DFU_TINYUSB_BOS(sizeof microsoft)};
 *     one with others, whose DFU interface has the number 2:
 *         static uint8_t const microsoft[] = {DFU_TINYUSB_MICROSOFT_FUNCTION(2)};
 *     the landing page, by https:
 *         static uint8_t const page[] = {DFU_TINYUSB_PAGE(22), 'e', 'x', 'a', 'm', 'p', 'l', 'e', '.', 'o', 'r', 'g', ..};
 *
 *     uint8_t const *tud_descriptor_bos_cb(void) { return bos; }
 *     bool tud_vendor_control_xfer_cb(uint8_t rhport, uint8_t stage, tusb_control_request_t const *request) {
 *         return dfu_tinyusb_vendor(rhport, stage, request, microsoft, page);
 *     }
 *
 * A program that already has these two callbacks puts TinyUSB's TUD_BOS_WEBUSB_DESCRIPTOR and TUD_BOS_MS_OS_20_DESCRIPTOR into its own BOS
 * descriptor, and calls dfu_tinyusb_vendor for vendor requests that it doesn't handle itself.
 */
#ifndef DFU_TINYUSB_DESCRIPTORS_H
#define DFU_TINYUSB_DESCRIPTORS_H

#include "tusb.h"

#ifdef __cplusplus
extern "C" {
#endif

/** @brief bRequest of the vendor requests for the Microsoft OS 2.0 descriptor set and for the landing page. A program that uses these
 *         numbers itself defines others. */
#ifndef DFU_TINYUSB_MICROSOFT
#define DFU_TINYUSB_MICROSOFT 0xd1
#endif
#ifndef DFU_TINYUSB_WEBUSB
#define DFU_TINYUSB_WEBUSB 0xd2
#endif

/** @brief The interface descriptor (USB DFU 1.1, sections 4.1.2 and 4.2.3) and its functional descriptor (4.1.3): string is the index of
 *         the interface's name, or 0; attributes, detach_ms and transfer are those of struct dfu_config. */
#define DFU_TINYUSB_INTERFACE_LENGTH 18
#define DFU_TINYUSB_INTERFACE(number, string, protocol, attributes, detach_ms, transfer) \
    9, TUSB_DESC_INTERFACE, (number), 0, 0, TUSB_CLASS_APPLICATION_SPECIFIC, 1, (protocol), (string), 9, 0x21, (attributes), \
        U16_TO_U8S_LE(detach_ms), U16_TO_U8S_LE(transfer), U16_TO_U8S_LE(0x0110)

/** @brief A BOS descriptor of 57 bytes: WebUSB, with landing page 1, and Microsoft OS 2.0, whose descriptor set has `set` bytes. */
#define DFU_TINYUSB_BOS(set) \
    TUD_BOS_DESCRIPTOR(TUD_BOS_DESC_LEN + TUD_BOS_WEBUSB_DESC_LEN + TUD_BOS_MICROSOFT_OS_DESC_LEN, 2), \
        TUD_BOS_WEBUSB_DESCRIPTOR(DFU_TINYUSB_WEBUSB, 1), TUD_BOS_MS_OS_20_DESCRIPTOR((set), DFU_TINYUSB_MICROSOFT)

/** @brief The first three bytes of a landing page: a URL descriptor of WebUSB, for https and an address of that many characters. */
#define DFU_TINYUSB_PAGE(characters) 3 + (characters), 3, 1

/* Parts of the descriptor sets: a compatible ID of 20 bytes, and a DeviceInterfaceGUIDs property of 132 bytes, by which programs find the
 * interface. */
#define DFU_TINYUSB_WIDE4(a, b, c, d) (a), 0, (b), 0, (c), 0, (d), 0
#define DFU_TINYUSB_WINUSB \
    20, 0, 3, 0, 'W', 'I', 'N', 'U', 'S', 'B', 0, 0, 0, 0, 0, 0, 0, 0, 0, 0, 132, 0, 4, 0, 7, 0, 42, 0, \
        DFU_TINYUSB_WIDE4('D', 'e', 'v', 'i'), DFU_TINYUSB_WIDE4('c', 'e', 'I', 'n'), DFU_TINYUSB_WIDE4('t', 'e', 'r', 'f'), \
        DFU_TINYUSB_WIDE4('a', 'c', 'e', 'G'), DFU_TINYUSB_WIDE4('U', 'I', 'D', 's'), 0, 0, 80, 0, '{', 0, \
        DFU_TINYUSB_WIDE4('5', 'B', '1', 'C'), DFU_TINYUSB_WIDE4('C', '8', 'B', 'E'), DFU_TINYUSB_WIDE4('-', '4', '0', '3'), \
        DFU_TINYUSB_WIDE4('5', '-', '4', 'D'), DFU_TINYUSB_WIDE4('6', 'B', '-', '8'), DFU_TINYUSB_WIDE4('E', '4', 'E', '-'), \
        DFU_TINYUSB_WIDE4('C', '9', 'B', 'B'), DFU_TINYUSB_WIDE4('E', '9', '6', 'F'), DFU_TINYUSB_WIDE4('B', 'F', 'E', 'A'), '}', 0, 0, 0, \
        0, 0

/** @brief The Microsoft OS 2.0 descriptor set, of 162 bytes, for a device with no other interface. Windows loads no composite driver for
 *         such a device, and reads no function subset. */
#define DFU_TINYUSB_MICROSOFT_DEVICE 10, 0, 0, 0, 0, 0, 3, 6, 162, 0, DFU_TINYUSB_WINUSB

/** @brief The Microsoft OS 2.0 descriptor set, of 178 bytes, for the interface with this number of a device with several interfaces. */
#define DFU_TINYUSB_MICROSOFT_FUNCTION(number) \
    10, 0, 0, 0, 0, 0, 3, 6, 178, 0, 8, 0, 1, 0, 0, 0, 168, 0, 8, 0, 2, 0, (number), 0, 160, 0, DFU_TINYUSB_WINUSB

/** @brief Answers a request without a data stage of the host, with `length` bytes but at most wLength. If wLength is 0, the status stage is
 *         IN, even if bit 7 of bmRequestType is set (USB 2.0, 9.3.1 and 8.5.3); TinyUSB 0.18 would wait for an OUT.
 *  @return the result of tud_control_xfer or of tud_control_status */
static inline bool dfu_tinyusb_answer(uint8_t rhport, tusb_control_request_t const *request, const uint8_t *bytes, uint16_t length)
{
    tusb_control_request_t turned = *request;
    if (request->wLength > 0) /* TinyUSB only reads these bytes, although its parameter is not const */
        return tud_control_xfer(rhport, request, (void *)(uintptr_t)bytes, length);
    turned.bmRequestType_bit.direction = TUSB_DIR_OUT;
    return tud_control_status(rhport, &turned);
}

/** @brief Serves the two vendor requests, with a descriptor set and a landing page as above.
 *  @return the result for tud_vendor_control_xfer_cb; false if it is another request */
static inline bool dfu_tinyusb_vendor(uint8_t rhport, uint8_t stage, tusb_control_request_t const *request, const uint8_t *microsoft,
                                      const uint8_t *page)
{
    const bool is_read = request->bmRequestType == 0xc0;
    const bool is_microsoft = is_read && request->bRequest == DFU_TINYUSB_MICROSOFT && request->wIndex == 7;
    const bool is_webusb = is_read && request->bRequest == DFU_TINYUSB_WEBUSB && request->wIndex == 2 && request->wValue == 1;
    if (!is_microsoft && !is_webusb)
        return false;
    if (stage != CONTROL_STAGE_SETUP)
        return true;
    if (is_webusb)
        return dfu_tinyusb_answer(rhport, request, page, page[0]);
    return dfu_tinyusb_answer(rhport, request, microsoft, (uint16_t)(microsoft[8] | microsoft[9] << 8));
}

#ifdef __cplusplus
}
#endif

#endif
