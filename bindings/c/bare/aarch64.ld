/* The memory of the machine `virt` begins at 0x40000000. It is mapped in pieces of 2 MB: code and constants stand
 * first, then the stack, which would grow into them: they cannot be written. */
ENTRY(start)
PHDRS {
    code PT_LOAD FLAGS(5);
    data PT_LOAD FLAGS(6);
}
SECTIONS {
    . = 0x40080000;
    .text : { code = .; *(.text.start) *(.text*) } :code
    .rodata : { *(.rodata*) *(.srodata*) } :code
    .stack (NOLOAD) : ALIGN(0x200000) { code_end = .; stack = .; . += 262144; stack_end = .; } :NONE
    .data : ALIGN(4096) { *(.data*) *(.sdata*) *(.got*) } :data
    .bss (NOLOAD) : ALIGN(16) { zeros = .; *(.bss*) *(.sbss*) *(COMMON) . = ALIGN(16); zeros_end = .; } :data
    .last (NOLOAD) : ALIGN(4096) { tables = .; . += 20480; . += 4096; fault_stack_end = .; data_end = .; } :data
    /DISCARD/ : { *(.note*) *(.comment) *(.eh_frame*) }
}
