/* The memory of qemu's board `virt` begins at 1 GB. */
ENTRY(start)
SECTIONS
{
    . = 0x40080000;
    .text : { *(.text.start) *(.text .text.*) }
    .rodata : { *(.rodata .rodata.*) }
    .data : { *(.data .data.*) *(.got .got.*) }
    . = ALIGN(16);
    bss_begin = .;
    .bss (NOLOAD) : { *(.bss .bss.* COMMON) . = ALIGN(16); }
    bss_end = .;
    . = ALIGN(16);
    . = . + 65536;
    stack_top = .;
    /DISCARD/ : { *(.comment) *(.eh_frame) *(.note*) }
}
