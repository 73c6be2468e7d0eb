/* The few names that mboot's code needs from the headers of MicroPython and of ST. */
#ifndef MBOOT_DEVICE_H
#define MBOOT_DEVICE_H

#include <stdbool.h>
#include <stddef.h>
#include <stdint.h>
#include <string.h>

/* An STM32F405: 1 MiB of flash, of which mboot uses the first 32 KiB itself. */
#define STM32F4
#define FLASH_SECTOR_8
#define FLASH_BASE 0x08000000u
#define FLASH_END 0x080fffffu
#define _mboot_protected_flash_start (*(uint8_t *)0x08000000)
#define _mboot_protected_flash_end_exclusive (*(uint8_t *)0x08008000)

/* Definitions of ST's USB stack. */
#define USBD_OK 0
#define USB_LEN_DEV_DESC 18
#define USB_LEN_LANGID_STR_DESC 4
#define USB_DESC_TYPE_STRING 3
#define USBD_MAX_STR_DESC_SIZ 256
#define MICROPY_HW_USB_IS_MULTI_OTG 1
#define BOOTLOADER_DFU_USB_VID 0x1209
#define BOOTLOADER_DFU_USB_PID 0x0001
#define MP_HAL_UNIQUE_ID_ADDRESS "0123456789ab"
#define __ALIGN_BEGIN
#define __ALIGN_END __attribute__((aligned(4)))
#define LOBYTE(word) ((uint8_t)(word))
#define HIBYTE(word) ((uint8_t)((word) >> 8))
#ifndef MIN
#define MIN(a, b) ((a) < (b) ? (a) : (b))
#endif
enum { USBD_IDX_LANGID_STR, USBD_IDX_MFC_STR, USBD_IDX_PRODUCT_STR, USBD_IDX_SERIAL_STR, USBD_IDX_CONFIG_STR };

typedef struct {
    void *pClassData;
} USBD_HandleTypeDef;

typedef struct {
    uint8_t bmRequest, bRequest;
    uint16_t wValue, wIndex, wLength;
} USBD_SetupReqTypedef;

typedef struct {
    uint8_t *(*device)(USBD_HandleTypeDef *, uint16_t *);
    uint8_t *(*string)(USBD_HandleTypeDef *, uint8_t, uint16_t *);
} USBD_DescriptorsTypeDef;

void USBD_CtlSendData(USBD_HandleTypeDef *, uint8_t *, int);
void USBD_CtlPrepareRx(USBD_HandleTypeDef *, uint8_t *, int);
void USBD_CtlError(USBD_HandleTypeDef *, USBD_SetupReqTypedef *);
void USBD_GetString(uint8_t *, uint8_t *, uint16_t *);

/* Declarations of MicroPython's flash.h. */
bool flash_is_valid_addr(uint32_t addr);
int32_t flash_get_sector_info(uint32_t addr, uint32_t *start_addr, uint32_t *size);
int flash_erase(uint32_t flash_dest);
int flash_write(uint32_t flash_dest, const uint32_t *src, uint32_t num_word32);

#include "mboot.h" /* from MicroPython */
#include "dfu.h"

dfu_context_t dfu_context;
#include "mboot_flash.inc"

#endif
