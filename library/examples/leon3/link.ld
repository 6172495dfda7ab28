/* A LEON3 of QEMU (leon3_generic): all in the memory at 0x40000000, the stack at its top. */
ENTRY(start)
SECTIONS
{
    . = 0x40000000;
    .text : { KEEP(*(.traps)) *(.text*) *(.rodata*) . = ALIGN(8); }
    .data : { *(.data*) *(.got*) . = ALIGN(8); }
    .bss (NOLOAD) : { bss_begins = .; *(.bss*) *(COMMON) . = ALIGN(8); bss_ends = .; }
    stack_top = 0x40800000;
    loaded = 0x41FFFFFC;
    /DISCARD/ : { *(.comment) *(.note*) *(.eh_frame*) *(.interp) *(.dyn*) *(.hash) *(.gnu*) *(.rela*) }
}
