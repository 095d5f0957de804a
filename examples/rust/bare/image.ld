/* Defines where an image for qemu's board mps2-an386 (Cortex-M4) lies: code at 0, memory at 0x20000000.
 * Assumes no initialised data in memory; what begins as zero is made so by the image. */
ENTRY(reset)
MEMORY {
  CODE (rx) : ORIGIN = 0x0, LENGTH = 256K
  RAM (rw) : ORIGIN = 0x20000000, LENGTH = 128K
}
SECTIONS {
  .text : { KEEP(*(.vectors)) *(.text*) *(.rodata*) } > CODE
  .data : { *(.data*) } > RAM
  ASSERT(SIZEOF(.data) == 0, "initialised data in memory")
  .bss (NOLOAD) : { . = ALIGN(8); bss_start = .; *(.bss*) *(COMMON) . = ALIGN(4); bss_end = .; } > RAM
  .stack (NOLOAD) : { . = ALIGN(8); . += 24K; stack_top = .; } > RAM
  /DISCARD/ : { *(.ARM.exidx*) *(.ARM.extab*) }
}
