/* A machine `virt` of QEMU: all in memory, which begins at `memory`. */
ENTRY(_start)
SECTIONS {
    . = memory;
    .text : { *(.text.first) *(.text*) *(.rodata*) *(.srodata*) }
    .data : { *(.data*) *(.sdata*) *(.got*) }
    .bss (NOLOAD) : { *(.sbss*) *(.bss*) *(COMMON) . = ALIGN(16); . += 0x40000; __stack = .; }
}
