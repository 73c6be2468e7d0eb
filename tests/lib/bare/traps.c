/* Causes an exception that calls on_fault: a load from an unaligned address, or with the argument `vector` a use of AArch64's vector unit.
 */
#include <stdio.h>

int main(int count, char **words) {
    static const unsigned char bytes[8] __attribute__((aligned(8))) = {0};
    unsigned got = 0;
#if defined(__aarch64__)
    if (count > 1 && words[1][0] == 'v')
        __asm__ volatile(".arch_extension fp\nfmov s0, wzr");
    else
        __asm__ volatile("ldr %w0, [%1]" : "=r"(got) : "r"(bytes + 1));
#elif defined(__arm__)
    __asm__ volatile("ldr %0, [%1]" : "=l"(got) : "l"(bytes + 1));
#else
    __asm__ volatile("lw %0, 1(%1)" : "=r"(got) : "r"(bytes));
#endif
    (void)count, (void)words;
    printf("no trap: %u\n", got);
    return 0;
}
