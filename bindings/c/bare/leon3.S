/* How leon3_generic of qemu-system-sparc starts: traps are off, so that any trap ends the program. Compiled with -mflat,
 * which uses no register windows. */
    .section .text.start, "ax"
    .global _start
_start:
    set 0x10E0, %g1        /* floating point on, supervisor, traps off */
    wr %g1, %psr
    nop
    nop
    nop
    wr %g0, 0, %wim
    nop
    nop
    nop
    set stack_top - 96, %sp
    set bss_start, %g1
    set bss_end, %g2
1:  cmp %g1, %g2
    bgeu 2f
    nop
    st %g0, [%g1]
    ba 1b
    add %g1, 4, %g1
2:  call main
    nop
    call machine_end
    nop
