MEMORY { ROM (rx): ORIGIN = 0, LENGTH = 4M  RAM (rwx): ORIGIN = 0x20000000, LENGTH = 4M }
SECTIONS {
  .text : { KEEP(*(.vectors)) *(.text*) *(.rodata*) } > ROM
  .data : { *(.data*) } > RAM
  .bss : { *(.bss*) *(COMMON) } > RAM
  .ARM.exidx : { *(.ARM.exidx*) } > ROM
  /DISCARD/ : { *(.ARM.attributes) }
}
ENTRY(reset)
