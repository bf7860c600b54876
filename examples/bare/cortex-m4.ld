/* 256 KiB of flash and 64 KiB of memory, the stack at the end of it. */
MEMORY
{
    FLASH (rx) : ORIGIN = 0x00000000, LENGTH = 256K
    RAM (rw) : ORIGIN = 0x20000000, LENGTH = 64K
}
ENTRY(reset)
SECTIONS
{
    .text : { KEEP(*(.vectors)) *(.text*) *(.rodata*) . = ALIGN(8); data_from = .; } >FLASH
    .data : { data_start = .; *(.data*) . = ALIGN(8); data_end = .; } >RAM AT >FLASH
    .bss (NOLOAD) : { bss_start = .; *(.bss*) *(COMMON) . = ALIGN(8); bss_end = .; } >RAM
    /DISCARD/ : { *(.comment) *(.ARM.exidx*) *(.note*) }
}
stack_top = ORIGIN(RAM) + LENGTH(RAM);
/* what include/sukhlent.h says of the stack on a Cortex-M4, and the program's own */
ASSERT(stack_top - bss_end >= 18500 + 1500, "too little memory is left for the stack")
