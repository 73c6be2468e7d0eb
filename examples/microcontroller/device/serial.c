/* SPDX-License-Identifier: MIT OR Apache-2.0 */
/* UART0 of the nRF51, at 115,200 baud, on the pins that lead to the micro:bit's USB interface. */
#include "serial.h"

#define UART(at) (*(volatile uint32_t *)(0x40002000 + (at)))
#define STARTRX UART(0x000)
#define STARTTX UART(0x008)
#define RXDRDY UART(0x108)
#define TXDRDY UART(0x11c)
#define INTENSET UART(0x304)
#define ENABLE UART(0x500)
#define PSELTXD UART(0x50c)
#define PSELRXD UART(0x514)
#define RXD UART(0x518)
#define TXD UART(0x51c)
#define BAUDRATE UART(0x524)

void serial_begin(void) {
    PSELTXD = 24;
    PSELRXD = 25;
    BAUDRATE = 0x01d7e000;
    ENABLE = 4;
    RXDRDY = 0;
    INTENSET = 1u << 2;
    STARTRX = 1;
    STARTTX = 1;
}

int serial_get(void) {
    if (RXDRDY == 0)
        return -1;
    RXDRDY = 0;
    return (int)(RXD & 0xff);
}

void serial_put(uint8_t byte) {
    TXDRDY = 0;
    TXD = byte;
    while (TXDRDY == 0)
        ;
}
