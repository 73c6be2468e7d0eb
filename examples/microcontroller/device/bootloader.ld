/* The bootloader's flash, and its memory. The stack lies below all else, so that one that overflows leaves the memory and is a fault. */
MEMORY {
    flash (rx) : ORIGIN = 0, LENGTH = DEFINED(flash_size) ? flash_size : 19K
    memory (rw) : ORIGIN = 0x20000000, LENGTH = 4K
}
ENTRY(on_reset)
SECTIONS {
    .text : { KEEP(*(.vectors)) *(.text*) *(.rodata*) } > flash
    .ARM.exidx : { *(.ARM.exidx*) } > flash
    .stack (NOLOAD) : { __stack_begins = .; . += stack_size; . = ALIGN(8); __stack = .; } > memory
    .bss (NOLOAD) : { __bss = .; *(.bss*) *(COMMON) . = ALIGN(4); __bss_end = .; } > memory
    .noinit (NOLOAD) : { *(.noinit) __memory_end = .; } > memory
    .data : { *(.data*) } > memory
    ASSERT(SIZEOF(.data) == 0, "the start copies no data")
}
