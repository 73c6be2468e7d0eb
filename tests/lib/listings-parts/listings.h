/* Declarations that the parts of tests/lib/porting/played share. */
#ifndef LISTINGS_H
#define LISTINGS_H
#include <stddef.h>
#include <stdint.h>

enum { MOST_PAYLOAD = 8192 };

/* host.c: begins a session that installs this image, and verifies it if `verifies`; and carries out the next action. Returns 0 if the
 * session continues; else its report. */
void host_begins(const uint8_t *image, size_t n, const uint8_t descriptor[9], int verifies);
uint32_t host_acts(void);
void host_hears_restart(void);
int is_in_place(uint32_t report);

/* play.c: a transfer on the bus, which the running program answers. */
int32_t bus_carries(const uint8_t setup[8], const uint8_t *body, size_t length, uint8_t *answer);
void bus_is_reset(void);
void bus_waits(uint32_t ms);

/* listing.c: functions around the code of the page. */
int listing_main(void);
void listing_asks(void);
int32_t listing_transfers(const uint8_t setup[8]);
int32_t listing_confirms(void);
int32_t listing_formats(const uint8_t *image, size_t length);
int32_t listing_finds(uint32_t *at, uint32_t *length);
size_t listing_size(void);
const uint8_t *listing_descriptor(void);
void image_runs(void);

/* play.c: returns 1 if the part loses power during this operation. */
int is_cut(void);
void power_fails(void);

/* monitor.c: checks the order of the calls by the laws. */
void power_goes(void);
void slots_are(uint8_t *flash, size_t size);
void part_erases(uint8_t *own, uint32_t at, uint32_t length);
void part_programs(uint8_t *own, uint32_t at, const uint8_t *bytes, uint32_t length);
extern unsigned long steps, marks, ends, violations;
#endif
