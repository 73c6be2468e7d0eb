// SPDX-License-Identifier: MIT OR Apache-2.0
/* What the program dfu calls of the system, beside the functions that the C library has under the same names: its heap, the words of its
 * command line, the number of an error, and that of a signal. In a program that the Rattle kit links, its archives libos_c and liblibc_c
 * hold these functions; the contracts are in the kit's libc/src/heap.rt and os/src/c.rt. Nothing here is proved.
 *
 * The program's own entry is dfu_main (dfu.S gives it that name). It takes no words: it asks for them by rattle_arg. */
#include <errno.h>
#include <signal.h>
#include <stddef.h>
#include <stdint.h>
#include <stdlib.h>

/* What a call for memory answers: whether there is a block, and where. */
struct tried {
    uint64_t is_there;
    void *block;
};

/* Without a block the pointer is one that is not null, and that nothing is read at. */
static char nothing;

static struct tried tried(void *block)
{
    struct tried answer = {block != NULL, block != NULL ? block : &nothing};
    return answer;
}

/* Every alignment that is asked for divides 16, and malloc gives that one. */
_Static_assert(_Alignof(max_align_t) % 16 == 0, "malloc has to align to 16 bytes");

/* A value without bytes takes a block too, so that it has an address of its own. */
struct tried rattle_alloc(size_t size, size_t alignment)
{
    return tried(malloc(size != 0 ? size : alignment));
}

/* The first `kept` bytes stay, which realloc does by itself; where there is no memory, the block is as it was. */
struct tried rattle_realloc(void *block, size_t kept, size_t size, size_t alignment)
{
    (void)kept;
    return tried(realloc(block, size != 0 ? size : alignment));
}

void rattle_dealloc(void *block)
{
    free(block);
}

static size_t word_count;
static char **words;

/* Puts a word, without the 0 at its end, into the room. It answers the length; -1 if there is no such word; and -2 if the word is longer
 * than the room, which is full then. */
ptrdiff_t rattle_arg(size_t number, uint8_t *room, size_t size)
{
    if (number >= word_count || words[number] == NULL)
        return -1;
    const char *word = words[number];
    for (size_t length = 0;; length++) {
        if (word[length] == 0)
            return (ptrdiff_t)length;
        if (length == size)
            return -2;
        room[length] = (uint8_t)word[length];
    }
}

int rattle_errno(void)
{
    return errno;
}

void rattle_set_errno(int error)
{
    errno = error;
}

/* glibc has this function as __sysv_signal too. The program calls it once, so that SIGPIPE is ignored. */
void (*dfu_signal(int number, void (*handler)(int)))(int)
{
    return signal(number, handler);
}

int dfu_main(void);

int main(int count, char **given)
{
    word_count = (size_t)count;
    words = given;
    return dfu_main();
}
