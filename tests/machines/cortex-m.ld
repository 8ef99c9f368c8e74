/* Code from 0 on, memory from 0x20000000 on: where QEMU's mps2 boards and the micro:bit have them. */
MEMORY { rom (rx) : ORIGIN = 0, LENGTH = 256K  ram (rwx) : ORIGIN = 0x20000000, LENGTH = 1M }
SECTIONS {
  .text : { KEEP(*(.vectors)) *(.text*) *(.rodata*) *(.ARM.extab*) } > rom
  .ARM.exidx : { *(.ARM.exidx*) } > rom
  .data : { . = ALIGN(8); *(.data*) *(.init_array*) *(.fini_array*) . = ALIGN(8); } > ram
  .bss (NOLOAD) : { bss_start = .; *(.bss*) *(COMMON) . = ALIGN(8); bss_end = .; end = .; } > ram
  stack_top = ORIGIN(ram) + LENGTH(ram);
}
