/* A bus in memory: a host, and a TinyUSB controller with only endpoint 0. Without a kernel a host can break off anywhere. */
#ifndef BUS_H
#define BUS_H
#include <stdbool.h>
#include <stdint.h>

/* Stages in which a request breaks off. BEFORE_TASK: tud_task has not handled the setup before the next event. */
enum stop { TO_THE_END, AFTER_SETUP, WITHIN_DATA, BEFORE_STATUS, TWO_SETUPS, BEFORE_TASK };
/* WITHIN_DATA: breaks off after this many packets; 0: after a random number. */
extern unsigned bus_packets;
/* Answers that the host received. Others are 0 or more: the number of bytes, or 0 for an acknowledgement. */
enum { BUS_STALL = -1, BUS_NOTHING = -2, BUS_HANGS = -3 };

/* bus_request: body has wLength bytes if the host sends, else `in` has room for as many. */
int bus_request(const uint8_t setup[8], const uint8_t *body, uint8_t *in, enum stop stop);
/* bus_enumerate: two resets, descriptors, SET_ADDRESS, SET_CONFIGURATION. Returns true if each was answered. */
bool bus_enumerate(void);
/* bus_reset: a bus reset, or the cable is unplugged. */
void bus_reset(bool is_unplugged);
/* bus_is_late: the end of a status stage is reported after the next setup, or not at all if the host sent that status stage. Some
 * controllers do so if the next setup has already arrived (dcd_stm32_fsdev.c of TinyUSB 0.18). */
extern bool bus_is_late;
/* bus_time: lets `ms` milliseconds pass. */
void bus_time(unsigned ms);
#endif
