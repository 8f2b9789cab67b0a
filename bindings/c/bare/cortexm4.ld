/* The memories of mps2-an386: code, data with the stack at the end, and a larger one for what is 0 at first. */
MEMORY {
  code (rx) : ORIGIN = 0x00000000, LENGTH = 4M
  data (rw) : ORIGIN = 0x20000000, LENGTH = 4M
  more (rw) : ORIGIN = 0x21000000, LENGTH = 16M
}
ENTRY(reset)
SECTIONS {
  .text : { KEEP(*(.vectors)) *(.text*) *(.rodata*) . = ALIGN(8); } > code
  .ARM.exidx : { *(.ARM.exidx*) } > code
  .data : { data_start = .; *(.data*) . = ALIGN(8); data_end = .; } > data AT > code
  data_load = LOADADDR(.data);
  .bss (NOLOAD) : { bss_start = .; *(.bss*) *(COMMON) . = ALIGN(8); bss_end = .; } > more
  stack_top = 0x20000000 + 4M;
}
