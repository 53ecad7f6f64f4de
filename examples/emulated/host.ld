ENTRY(start)
SECTIONS {
    . = 0x10000;
    .text : { *(.text.start) *(.text .text.*) }
    .rodata : { *(.rodata .rodata.*) }
    .data : { *(.data .data.*) . = ALIGN(16); }
    .bss : { . = ALIGN(4096); bss_start = .; *(.bss .bss.*) *(COMMON) . = ALIGN(16); bss_end = .; }
    /DISCARD/ : { *(.eh_frame) *(.comment) *(.note*) }
}
