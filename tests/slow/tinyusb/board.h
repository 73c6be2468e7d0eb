/* Parts that the programs of this folder share: a flash, a device on it, its descriptors, and a log. */
#ifndef BOARD_H
#define BOARD_H
#include "dfu_device.h"
#include "tusb.h"

enum { SECTOR = 4096, UNIT = 256, CAPACITY = 65536, FLASH_SIZE = DFU_MEDIUM_SIZE(UNIT, SECTOR, CAPACITY) };

extern uint8_t flash[FLASH_SIZE];
extern const struct dfu_driver flash_driver;
extern unsigned flash_erase_ms, flash_fails; /* flash_fails: one operation of this many fails halfway; 0: none */
extern unsigned long flash_erases, flash_programs;
/* flash_open: opens the file or disk that holds the flash from now on. Returns false if that fails. */
bool flash_open(const char *path);
/* setting: returns a number of the environment, or `otherwise` without it. */
unsigned setting(const char *name, int base, unsigned otherwise);
/* The device, with settings from the environment: ATTRIBUTES (hexadecimal), TRANSFER, BUSY, MANIFEST, INTERFACE. */
extern struct dfu_config config;
extern struct dfu_device device;
void board_set_up(void);
/* Returns bInterfaceProtocol, which selects the descriptors. */
uint8_t board_protocol(void);
/* Writes a line to the log, which is the file LOG. */
void board_log(const char *format, ...) __attribute__((format(printf, 1, 2)));
uint32_t now_ms(void);
/* The loop of the programs over raw-gadget: board_wait waits for 2 ms, or until a call of board_wake; board_begin starts TinyUSB. */
void board_begin(void);
void board_wait(void);
void board_wake(void);
/* board_become: replaces this program by another one, which has the same flash. */
void board_become(const char *program, const char *path);
#endif
