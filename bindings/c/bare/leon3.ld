ENTRY(_start)
SECTIONS {
  . = 0x40000000;
  .text : { *(.text.start) *(.text*) *(.rodata*) }
  .data : { *(.data*) }
  .bss : { . = ALIGN(8); bss_start = .; *(.bss*) *(COMMON) . = ALIGN(8); bss_end = .; }
  stack_top = 0x40000000 + 32M;
}
