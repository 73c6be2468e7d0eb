/* The table of an image, and its start: image.h says what it holds. */
    .syntax unified
    .cpu cortex-m0
    .thumb

    .section .table, "a"
    .globl table
table:
    .word __stack
    .word begin
    .rept 23
    .word on_other
    .endr
    .word on_timer1 /* exception 25 */
    .rept 22
    .word on_other
    .endr

    .section .text.start, "ax"
    .thumb_func
    .type on_other, %function
on_other:
    b on_other

    .section .note.GNU-stack, "", %progbits
