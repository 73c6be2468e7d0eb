/* SPDX-License-Identifier: MIT OR Apache-2.0 */
/* Runs a session of tests/bench/rust, in Rust or in C, with the argument `session`. With `stack` it prints the stack depth of the session.
 * With any other argument it only prepares the session. -DNONE=0 builds it without a session, and -DNONE=1 with only those calls of the
 * peer that a host's session makes. */
#include "painted.h"
#include "session.h"

#include <stdio.h>

static struct room room;
static uint32_t wrong;

#ifdef NONE
uint32_t session(struct room *given)
{
#if NONE
    peer_reset();
    given->out[0] = (uint8_t)peer_transfer(given->file, given->file, 1, given->out);
#endif
    return given->file[0];
}
#endif

/* Fills the descriptor, the erased flash and the file, whose suffix contains the CRC (USB DFU 1.1, appendix B). */
static void prepare(void)
{
    static const uint8_t descriptor[9] = {9, 0x21, 7, 255, 0, TRANSFER & 0xff, TRANSFER >> 8, 0x10, 1};
    static const uint8_t suffix[12] = {0, 1, 1, 0, 0x09, 0x12, 0, 1, 'U', 'F', 'D', SUFFIX};
    uint32_t sum = 0xffffffff;
    memcpy(room.descriptor, descriptor, sizeof descriptor);
    memset(room.flash, 0xff, sizeof room.flash);
    for (uint32_t at = 0; at < IMAGE; at++)
        room.file[at] = (uint8_t)((at * 2654435761u) >> 24);
    memcpy(room.file + IMAGE, suffix, sizeof suffix);
    for (uint32_t at = 0; at < sizeof room.file - 4; at++) {
        sum ^= room.file[at];
        for (int bit = 0; bit < 8; bit++)
            sum = (sum >> 1) ^ (sum & 1 ? 0xedb88320 : 0);
    }
    for (uint32_t at = 0; at < 4; at++)
        room.file[sizeof room.file - 4 + at] = (uint8_t)(sum >> 8 * at);
}

static void *run(void *word)
{
    if (*(int *)word)
        wrong = session(&room);
    return word;
}

int main(int count, char **words)
{
    const char what = count > 1 ? words[1][1] : 0;
    int is_run = what == 'e' || what == 't', none = 0;
    prepare();
    if (what == 't') {
        size_t empty = touched(run, &none);
        printf("%zu\n", touched(run, &is_run) - empty);
    } else
        run(&is_run);
    if (wrong != 0)
        printf("step %u of the session went wrong\n", (unsigned)wrong);
    return wrong != 0;
}

/* Ends the program if Rust panics. */
void stopped(void);
void stopped(void)
{
    puts("a panic");
    exit(4);
}

#ifdef __x86_64__
/* The crate `core` needs this symbol, which only a program that unwinds would call. */
void rust_eh_personality(void);
void rust_eh_personality(void)
{
    stopped();
}
#endif
