/* Calls the export of reads.ll for mapped flash, and with DFU_READ for flash that is not mapped, where each byte is 7 times its offset. If
 * a byte differs, the exit status is 1. */
#include <stdio.h>

#include "dfu_reads.h"

static const uint8_t memory[4] = {9, 8, 7, 6};

#ifdef DFU_READ
static unsigned calls;

void DFU_READ(const unsigned char *from, unsigned char *to, size_t count);
void DFU_READ(const unsigned char *from, unsigned char *to, size_t count) {
    calls++;
    for (size_t k = 0; k < count; k++)
        to[k] = (uint8_t)(7 * ((uintptr_t)from - (uintptr_t)memory + k));
}
#endif

int main(void) {
    for (size_t at = 0; at < 4; at++) {
        int64_t found = dfu_reads_byte(memory, at);
#ifdef DFU_READ
        int64_t wanted = (int64_t)(7 * at);
#else
        int64_t wanted = 256 + memory[at];
#endif
        if (found != wanted) {
            printf("byte %u is %d\n", (unsigned)at, (int)found);
            return 1;
        }
    }
#ifdef DFU_READ
    return calls != 4;
#else
    return 0;
#endif
}
