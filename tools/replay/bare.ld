/* Code at CODE, memory to write at DATA: --defsym gives the two. Nothing that is written to has a first value. */
ENTRY(start)
SECTIONS
{
    .text CODE : { KEEP(*(.start)) *(.text*) *(.rodata*) *(.srodata*) *(.ARM.ex*) }
    .data DATA : { *(.data*) *(.sdata*) }
    .bss DATA (NOLOAD) : { bss_start = .; *(.sbss*) *(.bss*) *(COMMON) . = ALIGN(16); bss_end = .; . = . + 0x10000; stack_top = .; }
    /DISCARD/ : { *(.comment) *(.eh_frame*) *(.note*) *(.riscv.attributes) }
}
ASSERT(SIZEOF(.data) == 0, "there is data with a first value")
