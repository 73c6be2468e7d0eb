/* A program at `place`, where the run area begins and the header of the signed image ends. */
SECTIONS {
    .text place : { KEEP(*(.table)) *(.text*) *(.rodata*) . = ALIGN(4); }
    /DISCARD/ : { *(.ARM.exidx*) }
    . = 0x20002000;
    .bss (NOLOAD) : { *(.data*) *(.bss*) *(COMMON) . = ALIGN(4); __bss_end = .; }
    __stack = 0x20004000;
    ASSERT(SIZEOF(.bss) == 0, "the start clears no memory")
}
