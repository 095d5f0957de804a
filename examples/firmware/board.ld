/* The memory of qemu's board mps2-an386, a Cortex-M4: code at 0, data and stack at 0x20000000. ROM, RAM and STACK may be given to the linker. */
ENTRY(reset)
MEMORY {
    ROM (rx) : ORIGIN = 0x00000000, LENGTH = 4M
    RAM (rw) : ORIGIN = 0x20000000, LENGTH = 4M
}
SECTIONS {
    .text : { KEEP(*(.vectors)) *(.text*) *(.rodata*) . = ALIGN(8); } > ROM
    .data : { data_from = .; *(.data*) . = ALIGN(8); data_to = .; } > RAM AT > ROM
    data_kept = LOADADDR(.data);
    .bss (NOLOAD) : { bss_from = .; *(.bss*) *(COMMON) . = ALIGN(8); bss_to = .; } > RAM
    .stack (NOLOAD) : { stack_low = .; . += DEFINED(stack_size) ? stack_size : 32K; . = ALIGN(8); stack_top = .; } > RAM
    /DISCARD/ : { *(.ARM.exidx*) *(.ARM.extab*) }
}
