/* RV32 without an OS: each trap but a timer's leads to on_fault. */
    .section .text.first, "ax"
    .globl _start
_start:
    la sp, __stack
    la t0, on_trap
    csrw mtvec, t0
    j begin

    .weak on_tick
    .balign 4
on_trap:
    csrr t0, mcause
    bgez t0, 1f
    la t0, on_tick
    beqz t0, 1f
    jr t0
1:  j on_fault
