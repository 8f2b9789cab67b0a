/* Begins at exception level 1, maps the devices and the memory of the program, each where it is, and takes the
 * interrupts of the timer. Any other exception is a fault, which is told, and ends the machine. */
        .section .text.start
        .globl start
start:  mrs     x0, mpidr_el1
        and     x0, x0, #0xFF
        cbnz    x0, rest
        /* The registers of vectors may be used. */
        mov     x0, #(3 << 20)
        msr     cpacr_el1, x0
        ldr     x0, =vectors
        msr     vbar_el1, x0
        /* The tables of the map: one row for each GB, and below it one for each 2 MB. What has no row is not there. */
        ldr     x5, =tables
        ldr     x1, =tables + 20480
        mov     x0, x5
1:      str     xzr, [x0], #8
        cmp     x0, x1
        b.lo    1b
        add     x0, x5, #4096
        orr     x0, x0, #3
        mov     x1, x5
        mov     x2, #4
2:      str     x0, [x1], #8
        add     x0, x0, #4096
        subs    x2, x2, #1
        b.ne    2b
        /* Devices are no code: the controller of interrupts, and the serial port. */
        add     x5, x5, #4096
        ldr     x4, =0x0060000000000401
        ldr     x0, =0x08000000
        ldr     x1, =0x08200000
        bl      map
        ldr     x0, =0x09000000
        ldr     x1, =0x09200000
        bl      map
        /* Code and constants cannot be written, and what is after them is no code. */
        ldr     x4, =0x0040000000000785
        ldr     x0, =code
        ldr     x1, =code_end
        bl      map
        ldr     x4, =0x0060000000000705
        ldr     x0, =code_end
        ldr     x1, =data_end
        bl      map
        dsb     sy
        /* Kinds of memory: 0 is of devices, 1 is cached. Addresses have 32 bits. */
        mov     x0, #0xFF00
        msr     mair_el1, x0
        ldr     x0, =0x803520
        msr     tcr_el1, x0
        ldr     x0, =tables
        msr     ttbr0_el1, x0
        isb
        tlbi    vmalle1
        dsb     nsh
        mrs     x0, sctlr_el1
        ldr     x1, =0x1005
        orr     x0, x0, x1
        msr     sctlr_el1, x0
        isb
        ldr     x0, =stack_end
        mov     sp, x0
        ldr     x1, =stack
        ldr     x2, =0xA5A5A5A5A5A5A5A5
3:      str     x2, [x1], #8
        cmp     x1, x0
        b.lo    3b
        ldr     x1, =zeros
        ldr     x0, =zeros_end
4:      cmp     x1, x0
        b.hs    5f
        str     xzr, [x1], #8
        b       4b
5:      bl      main
        cmp     x0, #0
        cset    x0, ne

        /* The machine ends with the status in x0: 0, 1 where main gives another number than 0, 2 after a fault. Where
         * `-semihosting` is not given, the request is an exception, and the machine ends with 0. */
ends:   ldr     x1, =stops
        msr     vbar_el1, x1
        isb
        ldr     x1, =stack
        ldr     x2, =0x20026
        stp     x2, x0, [x1]
        mov     x0, #0x18
        hlt     #0xF000
stop:   ldr     x0, =0x84000008
        hvc     #0
rest:   wfi
        b       rest

        /* Maps what is from x0 up to x1, as x4 says, in the rows from x5 on. */
map:    lsr     x2, x0, #21
        lsl     x3, x2, #21
        orr     x3, x3, x4
        str     x3, [x5, x2, lsl #3]
        add     x2, x2, #1
        lsl     x0, x2, #21
        cmp     x0, x1
        b.lo    map
        ret

fault:  ldr     x0, =fault_stack_end
        mov     sp, x0
        mrs     x0, esr_el1
        mrs     x1, elr_el1
        mrs     x2, far_el1
        bl      machine_fault
        mov     x0, #2
        b       ends

        /* An interrupt: the registers that a call may change are kept, those of vectors too. */
        .macro  keep op
        \op     x0, x1, [sp, #0]
        \op     x2, x3, [sp, #16]
        \op     x4, x5, [sp, #32]
        \op     x6, x7, [sp, #48]
        \op     x8, x9, [sp, #64]
        \op     x10, x11, [sp, #80]
        \op     x12, x13, [sp, #96]
        \op     x14, x15, [sp, #112]
        \op     x16, x17, [sp, #128]
        \op     x18, x30, [sp, #144]
        \op     q0, q1, [sp, #176]
        \op     q2, q3, [sp, #208]
        \op     q4, q5, [sp, #240]
        \op     q6, q7, [sp, #272]
        \op     q8, q9, [sp, #304]
        \op     q10, q11, [sp, #336]
        \op     q12, q13, [sp, #368]
        \op     q14, q15, [sp, #400]
        \op     q16, q17, [sp, #432]
        \op     q18, q19, [sp, #464]
        \op     q20, q21, [sp, #496]
        \op     q22, q23, [sp, #528]
        \op     q24, q25, [sp, #560]
        \op     q26, q27, [sp, #592]
        \op     q28, q29, [sp, #624]
        \op     q30, q31, [sp, #656]
        .endm

        .text
interrupt:
        sub     sp, sp, #688
        keep    stp
        mrs     x0, fpsr
        str     x0, [sp, #160]
        bl      machine_interrupt
        ldr     x0, [sp, #160]
        msr     fpsr, x0
        keep    ldp
        add     sp, sp, #688
        eret

        /* Any other exception than an interrupt is a fault. */
        .balign 2048
vectors:
        .rept   5
        b       fault
        .balign 128
        .endr
        b       interrupt
        .balign 128
        .rept   10
        b       fault
        .balign 128
        .endr

        .balign 2048
stops:
        .rept   16
        b       stop
        .balign 128
        .endr
