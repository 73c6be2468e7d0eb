/* The calls of TinyUSB in the loops in the headers of examples/tinyusb. They were written without the original headers, for
 * tests/c/porting. */
#ifndef TUSB_H
#define TUSB_H
#include <stdbool.h>
#include <stdint.h>

bool tud_init(uint8_t rhport);
void tud_task(void);
bool tud_connect(void);
bool tud_disconnect(void);
#endif
