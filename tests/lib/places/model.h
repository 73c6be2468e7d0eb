/* Model of a part with unequal sectors, by its addresses. */
#ifndef MODEL_H
#define MODEL_H

#include "parts.h"
#include <setjmp.h>

enum { TEARS = 5, MOST = 2048 * KIB };

extern uint8_t model_bytes[MOST];         /* bytes of the part, from its first address */
extern const struct part *model_part;     /* the current part */
extern const struct dfu_driver model;     /* driver of the part; its calls take addresses, not offsets */
extern long model_operations, model_erases; /* operations and erases since the count was set to 0 */
extern long model_cut[2];                 /* numbers, from 1, of the operations that lose power; 0: none */
extern int model_tear[2];                 /* how each of these is cut off: 0 to TEARS - 1 */
extern int model_active;                  /* slot of the active image, which no operation may touch; -1: none */
extern jmp_buf model_off;                 /* jump target of a loss of power */

/* Makes this the current part, and fills it with bytes that differ from address to address; nothing counts as erased. */
void model_begin(const struct part *part);
/* Counts a condition that doesn't hold, and prints the first ten. */
void model_expect(const char *what, int holds);
/* Returns 1 if the bytes outside the six things are unchanged. */
int model_rest_is_kept(void);
/* Forgets which bytes were erased, as after a loss of power. */
void model_forget(void);
/* Returns the bytes at an address. */
const uint8_t *model_at(uint32_t address);
/* Reads bytes at an address. */
void model_read(uint32_t address, uint8_t *to, size_t count);
/* Returns the number of conditions that failed. */
int model_wrong(void);

#endif
