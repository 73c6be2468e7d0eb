/* Code from `code` on, and memory from `memory` on, whose length is `memory_size`. */
SECTIONS {
    .text code : { KEEP(*(.text.first)) *(.text*) *(.rodata*) }
    .ARM.exidx : { *(.ARM.exidx*) }
    . = memory;
    .data : { *(.data*) . = ALIGN(8); }
    .bss (NOLOAD) : { *(.bss*) *(COMMON) . = ALIGN(8); end = .; }
    __stack = memory + memory_size;
    ASSERT(__stack - end >= stack_size, "no room for the stack")
}
