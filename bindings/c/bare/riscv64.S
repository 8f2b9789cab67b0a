/* Begins with the first processor at 0x80000000, and takes the interrupts of its timer. What is no such interrupt is a
 * fault, which is told, and ends the machine. */
        .section .text.start
        .globl start
start:  csrr    t0, mhartid
        bnez    t0, rest
        /* Numbers with a point are computed by the processor. */
        li      t0, 0x2000
        csrs    mstatus, t0
        la      t0, interrupt
        csrw    mtvec, t0
        /* Devices below the memory are no code, code and constants cannot be written, and what is after them is no
         * code; above it there is nothing. Each row of a table says up to where it holds (the address by 4), and what
         * may be done: 1 to read, 2 to write, 4 to run code; 8 and 0x80 have it hold here too. */
        li      t0, 0x80000000 >> 2
        csrw    pmpaddr0, t0
        la      t0, code_end
        srli    t0, t0, 2
        csrw    pmpaddr1, t0
        la      t0, data_end
        srli    t0, t0, 2
        csrw    pmpaddr2, t0
        li      t0, -1
        csrw    pmpaddr3, t0
        li      t0, 0x888B8D8B
        csrw    pmpcfg0, t0
        la      sp, stack_end
        la      t0, stack
        li      t1, 0xA5A5A5A5A5A5A5A5
1:      sd      t1, 0(t0)
        addi    t0, t0, 8
        bltu    t0, sp, 1b
        la      t0, zeros
        la      t1, zeros_end
2:      bgeu    t0, t1, 3f
        sd      zero, 0(t0)
        addi    t0, t0, 8
        j       2b
3:      call    main
        /* The machine ends: status 0, 1 where main gives another number than 0, 2 after a fault. */
        li      t0, 0x100000
        li      t1, 0x5555
        beqz    a0, 4f
        li      t1, 0x13333
4:      sw      t1, 0(t0)
rest:   wfi
        j       rest

fault:  la      sp, fault_stack_end
        csrr    a0, mcause
        csrr    a1, mepc
        csrr    a2, mtval
        call    machine_fault
        li      t0, 0x100000
        li      t1, 0x23333
        j       4b

        /* An interrupt: the registers that a call may change are kept, those of numbers with a point too. */
        .macro  keep op, fop
        \op     ra, 0(sp)
        \op     t0, 8(sp)
        \op     t1, 16(sp)
        \op     t2, 24(sp)
        \op     t3, 32(sp)
        \op     t4, 40(sp)
        \op     t5, 48(sp)
        \op     t6, 56(sp)
        \op     a0, 64(sp)
        \op     a1, 72(sp)
        \op     a2, 80(sp)
        \op     a3, 88(sp)
        \op     a4, 96(sp)
        \op     a5, 104(sp)
        \op     a6, 112(sp)
        \op     a7, 120(sp)
        .irp    n, 0, 1, 2, 3, 4, 5, 6, 7, 8, 9, 10, 11
        \fop    ft\n, 128+8*\n(sp)
        .endr
        .irp    n, 0, 1, 2, 3, 4, 5, 6, 7
        \fop    fa\n, 224+8*\n(sp)
        .endr
        .endm

        .text
        .balign 4
interrupt:
        /* The timer's is 7 with the highest bit. */
        csrw    mscratch, t0
        csrr    t0, mcause
        bgez    t0, fault
        slli    t0, t0, 1
        addi    t0, t0, -14
        bnez    t0, fault
        csrr    t0, mscratch
        addi    sp, sp, -304
        keep    sd, fsd
        frcsr   t0
        sd      t0, 288(sp)
        call    machine_interrupt
        ld      t0, 288(sp)
        fscsr   t0
        keep    ld, fld
        addi    sp, sp, 304
        mret
