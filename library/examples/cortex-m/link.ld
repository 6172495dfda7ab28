/* QEMU's mps2-an385, a Cortex-M3: code from address 0, data in the memory at 0x20000000, the stack at its top. */
ENTRY(reset)
MEMORY
{
    flash (rx) : ORIGIN = 0x00000000, LENGTH = 4M
    ram (rwx) : ORIGIN = 0x20000000, LENGTH = 4M
}
SECTIONS
{
    .text : { KEEP(*(.vectors)) *(.text*) *(.rodata*) *(.ARM.exidx*) . = ALIGN(8); } > flash
    data_from = .;
    .data : { data_begins = .; *(.data*) . = ALIGN(8); data_ends = .; } > ram AT > flash
    .bss (NOLOAD) : { bss_begins = .; *(.bss*) *(COMMON) . = ALIGN(8); bss_ends = .; } > ram
    stack_top = ORIGIN(ram) + LENGTH(ram);
    loaded = 0x21000000;
}
