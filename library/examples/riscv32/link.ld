/* QEMU's machine virt with a RISC-V of 32 bits: all in the memory at 0x80000000, the stack below 0x80800000. */
ENTRY(start)
SECTIONS
{
    . = 0x80000000;
    .text : { KEEP(*(.start)) *(.text*) *(.rodata*) . = ALIGN(8); }
    .data : { *(.data*) *(.sdata*) . = ALIGN(8); }
    .bss (NOLOAD) : { bss_begins = .; *(.bss*) *(.sbss*) *(COMMON) . = ALIGN(8); bss_ends = .; }
    stack_top = 0x80800000;
    loaded = 0x81FFFFFC;
    /DISCARD/ : { *(.comment) *(.note*) *(.eh_frame*) *(.riscv.attributes) }
}
