/* The log: a line for each transfer of the class and for each other event on the bus, and one at the end. */
#ifndef USB_LOG_H
#define USB_LOG_H

#include "settings.h"

/* Logs transfer `number`: its setup, the data that the device sent, the program's result, and the state after the transfer. */
void log_transfer(unsigned number, const uint8_t setup[8], const uint8_t *data, int answer, enum fate_kind fate, int state);
void log_reset(int state);
void log_pull(int state); /* the device was unplugged and replugged */
void log_setting(int setting);
void log_started(uint32_t address); /* a DfuSe device started an application */
void log_end(unsigned transfers, int state, int code);

#endif
