/* The bootloader, at 0, or an image, at the place of the first slot's data: `place`. Its memory begins at `memory`. */
ENTRY(main)
SECTIONS
{
    . = place;
    .text : { KEEP(*(.vectors)) *(.text*) *(.rodata*) . = ALIGN(4); }
    data_from = .;
    . = memory;
    .data : AT(data_from) { data_begin = .; *(.data*); . = ALIGN(4); data_end = .; }
    .bss (NOLOAD) : { bss = .; *(.bss*) *(COMMON); . = ALIGN(8); bss_end = .; }
    stack_end = memory + 0x10000;
    /DISCARD/ : { *(.ARM*) *(.comment) }
}
