/* The program stands in the first MiB of memory that the machine's loader leaves free. */
ENTRY(start)
SECTIONS {
    . = 0x40100000;
    .text : { *(.start) *(.text .text.*) }
    .rodata : { *(.rodata .rodata.*) }
    .data : { *(.data .data.*) }
    .bss (NOLOAD) : { *(.bss .bss.*) *(COMMON) }
    . = ALIGN(16);
    . += 0x10000;
    stack_top = .;
    /DISCARD/ : { *(.comment) *(.note.*) *(.eh_frame*) }
}
