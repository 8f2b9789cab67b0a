/* The memory of the machine `virt` begins at 0x80000000. Code and constants stand first, then the stack, which would
 * grow into them: they cannot be written. What is zero at first is in no segment, since QEMU lays its description of
 * the machine there, which no program of this folder reads. */
ENTRY(start)
PHDRS {
    code PT_LOAD FLAGS(5);
    data PT_LOAD FLAGS(6);
}
SECTIONS {
    . = 0x80000000;
    .text : { *(.text.start) *(.text*) } :code
    .rodata : { *(.rodata*) *(.srodata*) } :code
    .stack (NOLOAD) : ALIGN(4096) { code_end = .; stack = .; . += 262144; stack_end = .; } :NONE
    .data : ALIGN(4096) { *(.data*) *(.sdata*) *(.got*) } :data
    .bss (NOLOAD) : ALIGN(16) { zeros = .; *(.bss*) *(.sbss*) *(COMMON) . = ALIGN(16); zeros_end = .; } :NONE
    .last (NOLOAD) : ALIGN(16) { . += 4096; fault_stack_end = .; . = ALIGN(4096); data_end = .; } :NONE
    /DISCARD/ : { *(.note*) *(.comment) *(.eh_frame*) }
}
