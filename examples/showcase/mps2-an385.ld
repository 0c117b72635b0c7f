/* Where things stand in the memory of the emulated board (QEMU's mps2-an385), as of a part of 256 KB flash, 32 KB RAM.
 * The board has 4 MB: a trial with long buffers asks for more by --defsym ram_bytes=.. */
MEMORY {
    FLASH (rx) : ORIGIN = 0x00000000, LENGTH = 256K
    RAM (rwx) : ORIGIN = 0x20000000, LENGTH = DEFINED(ram_bytes) ? ram_bytes : 32K
}
ENTRY(on_reset)
SECTIONS {
    .text : { KEEP(*(.vectors)) *(.text*) *(.rodata*) . = ALIGN(4); } >FLASH
    .data : ALIGN(8) { data_begin = .; *(.data*) . = ALIGN(4); data_end = .; } >RAM AT>FLASH
    data_load = LOADADDR(.data);
    .bss (NOLOAD) : ALIGN(8) { bss_begin = .; *(.bss*) *(COMMON) . = ALIGN(8); bss_end = .; } >RAM
    /DISCARD/ : { *(.ARM.exidx*) }
}
/* The handlers' stack is what is left of the RAM: the stack of a step, which tools/target tells, and their own. */
INCLUDE quermanic-stack.ld
stack_top = ORIGIN(RAM) + LENGTH(RAM);
ASSERT(stack_top - bss_end >= QUERMANIC_STEP_STACK + 256, "there is not enough RAM left for the stack of a step")
