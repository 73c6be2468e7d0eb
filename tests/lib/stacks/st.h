/* The types of ST's USB_DEVICE library that docs/PORTING.md's listing needs. They were written without the original headers.
 * tests/c/porting compiles the listing after them. */
#include <stdint.h>

typedef enum { USBD_OK, USBD_BUSY, USBD_EMEM, USBD_FAIL } USBD_StatusTypeDef;
typedef struct {
    uint8_t bmRequest, bRequest;
    uint16_t wValue, wIndex, wLength;
} USBD_SetupReqTypedef;
#define USBD_STATE_DEFAULT 0x01U
#define USBD_STATE_CONFIGURED 0x03U
typedef struct USBD_Handle {
    volatile uint8_t dev_state;
    void *pClassData;
} USBD_HandleTypeDef;
typedef struct {
    uint8_t (*Init)(USBD_HandleTypeDef *, uint8_t);
    uint8_t (*DeInit)(USBD_HandleTypeDef *, uint8_t);
    uint8_t (*Setup)(USBD_HandleTypeDef *, USBD_SetupReqTypedef *);
    uint8_t (*EP0_TxSent)(USBD_HandleTypeDef *);
    uint8_t (*EP0_RxReady)(USBD_HandleTypeDef *);
    uint8_t *(*GetFSConfigDescriptor)(uint16_t *);
} USBD_ClassTypeDef;
USBD_StatusTypeDef USBD_CtlPrepareRx(USBD_HandleTypeDef *, uint8_t *, uint32_t);
USBD_StatusTypeDef USBD_CtlSendData(USBD_HandleTypeDef *, uint8_t *, uint32_t);
void USBD_CtlError(USBD_HandleTypeDef *, USBD_SetupReqTypedef *);
