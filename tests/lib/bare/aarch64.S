/* AArch64 without an OS, in the state that a bootloader begins in: no MMU. Each unaligned access and each use of the vector unit
 * leads to on_fault. */
    .section .text.first, "ax"
    .globl _start
_start:
    msr cpacr_el1, xzr          /* FPEN 0: the vector unit traps */
    adr x0, vectors
    msr vbar_el1, x0
    mrs x0, sctlr_el1
    orr x0, x0, #2              /* A: an unaligned access traps */
    msr sctlr_el1, x0
    isb
    ldr x0, =__stack
    mov sp, x0
    b begin

    .balign 2048
vectors:
    .rept 16
    .balign 128
    b on_fault
    .endr
