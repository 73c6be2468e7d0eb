/* Checks the addresses of the blocks of heap.ll after heap.py has changed it, against values worked out by hand. The heap itself uses the
 * first three words. A block uses its bytes plus one, rounded up to a multiple of 8. */
#include <stdio.h>
#include <stdlib.h>
#include <string.h>

#include "dfu_heap.h"

static long failed;

static void check(int holds, const char *what, size_t words)
{
    if (!holds) {
        failed++;
        printf("heap: %s, with %zu words\n", what, words);
    }
}

/* Allocates from `words` words; `last` determines the length of the fourth block. at: offset of each block; ends: offset after it, in
 * bytes. */
static void with_words(size_t words, size_t last)
{
    static const size_t at[5] = {24, 32, 48, 48, 48};
    const size_t ends[5] = {32, 48, 72, 48 + (last + 8) / 8 * 8, 56};
    uint64_t *memory = malloc(8 * words + 1);
    uint64_t said[5] = {1, 1, 1, 1, 1};
    int32_t result;
    int are_there = 1;
    if (memory == NULL)
        exit(2);
    memset(memory, 0xff, 8 * words);
    result = dfu_heap_try(said, last, memory, words);
    if (words < 3) {
        check(result == -7 && said[0] == 1, "too few words for the heap's own", words);
        free(memory);
        return;
    }
    for (int block = 0; block < 5; block++) {
        if (!are_there) {
            check(said[block] == 1, "what is behind a block that was refused", words);
            continue;
        }
        are_there = ends[block] <= 8 * words;
        check(said[block] == (are_there ? (uint64_t)(uintptr_t)((uint8_t *)memory + at[block]) : 0), "where a block is", words);
    }
    check(result == are_there, "whether all blocks are there", words);
    if (said[1] > 1)
        check(memcmp((uint8_t *)memory + 32, "BBBBBBBB", 8) == 0, "the bytes of the second block", words);
    if (are_there)
        check(memcmp((uint8_t *)memory + 48, "AAAAACCCCCCCCCCCCCCC", 20) == 0, "the bytes of a block that moved and grew", words);
    free(memory);
}

int main(void)
{
    for (size_t words = 0; words < 40; words++)
        for (size_t last = 20; last < 300; last += 7)
            with_words(words, last);
    check(dfu_heap_none(41) == 42, "an export that takes no memory", 0);
    return failed != 0;
}
