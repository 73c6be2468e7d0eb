/* An image at `place`, where the run area begins. */
SECTIONS {
    .text place : { KEEP(*(.table)) *(.text*) *(.rodata*) . = ALIGN(4); __data_in_flash = .; }
    /DISCARD/ : { *(.ARM.exidx*) }
    . = 0x20001000;
    .data : AT(__data_in_flash) { __data = .; *(.data*) . = ALIGN(4); __data_end = .; }
    .bss (NOLOAD) : { __bss = .; *(.bss*) *(COMMON) . = ALIGN(4); __bss_end = .; }
    __stack = 0x20004000;
    ASSERT(__stack - __bss_end >= 1024, "no room for the stack")
}
