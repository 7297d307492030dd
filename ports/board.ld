/* The memory of qemu's board mps2-an385. */
MEMORY { FLASH (rx) : ORIGIN = 0x0, LENGTH = 4M  RAM (rwx) : ORIGIN = 0x21000000, LENGTH = 16M }
ENTRY(reset)
SECTIONS {
    .text : { KEEP(*(.vectors)) *(.text*) *(.rodata*) *(.ARM.extab* .ARM.exidx*) . = ALIGN(8); } > FLASH
    .data : { *(.data*) } > RAM
    .bss : { *(.bss*) *(COMMON) . = ALIGN(8); } > RAM
    stack_top = 0x21000000 + 16M;
}
