/* Where things stand in the memory of the emulator's "virt" machines of RISC-V, which is zero at first. */
ENTRY(start)
SECTIONS {
    . = 0x80000000;
    .text : { *(.start) *(.text*) *(.rodata*) *(.srodata*) }
    . = ALIGN(16);
    .data : { *(.data*) *(.sdata*) }
    .bss : { *(.bss*) *(.sbss*) *(COMMON) }
    /DISCARD/ : { *(.eh_frame*) *(.note*) *(.comment) }
}
