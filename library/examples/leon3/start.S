! The start of a LEON3 without an operating system: the trap table, the register windows that it spills and fills, the stack and bss.
! Each other trap comes while traps are off, in its own handler, where one more trap ends the processor: a fault ends the run.
#define WINDOWS 8
#define PSR_SUPERVISOR 0xFC0    /* supervisor, no interrupts, traps off, window 0 */
#define PSR_TRAPS 0x20

        .macro  handler to
        rd      %psr, %l0
        sethi   %hi(\to), %l4
        jmp     %l4 + %lo(\to)
        nop
        .endm

        .macro  settle                  ! what is written to a register of the processor's state counts three instructions later
        nop
        nop
        nop
        .endm

        .section .traps, "ax"
        .align  4096
        .global traps
traps:
        handler start                   ! 0: reset
        .rept   4
        handler stop
        .endr
        handler spill                   ! 5: a window is wanted, and none is free
        handler fill                    ! 6: a window is wanted that was spilled
        .rept   249
        handler stop
        .endr

        .text
        .global start
start:
        wr      %g0, PSR_SUPERVISOR, %psr
        wr      %g0, 2, %wim            ! window 1 is the one that stays free
        set     traps, %g1
        wr      %g1, 0, %tbr
        settle
        set     stack_top, %sp
        sub     %sp, 96, %sp
        mov     %g0, %fp
        wr      %g0, PSR_SUPERVISOR | PSR_TRAPS, %psr
        settle
        set     bss_begins, %o0
        set     bss_ends, %o1
1:      cmp     %o0, %o1
        bgeu    2f
        nop
        st      %g0, [%o0]
        ba      1b
        add     %o0, 4, %o0
2:      call    main
        nop
        call    leave
        nop

! Ends the run: with traps off, `ta 0` ends QEMU.
        .global halt
halt:
        wr      %g0, PSR_SUPERVISOR, %psr
        settle
stop:
        ta      0
        ba      stop
        nop

! The oldest window goes to its stack, and is then the one that stays free.
spill:
        rd      %wim, %l3
        mov     %g1, %l7
        srl     %l3, 1, %g1
        sll     %l3, WINDOWS - 1, %l4
        or      %l4, %g1, %g1
        save
        wr      %g1, 0, %wim
        settle
        std     %l0, [%sp]
        std     %l2, [%sp + 8]
        std     %l4, [%sp + 16]
        std     %l6, [%sp + 24]
        std     %i0, [%sp + 32]
        std     %i2, [%sp + 40]
        std     %i4, [%sp + 48]
        std     %i6, [%sp + 56]
        restore
        mov     %l7, %g1
        jmp     %l1
        rett    %l2

! The window of the caller comes back from its stack.
fill:
        rd      %wim, %l3
        sll     %l3, 1, %l4
        srl     %l3, WINDOWS - 1, %l5
        or      %l5, %l4, %l5
        wr      %l5, 0, %wim
        settle
        restore
        restore
        ldd     [%sp], %l0
        ldd     [%sp + 8], %l2
        ldd     [%sp + 16], %l4
        ldd     [%sp + 24], %l6
        ldd     [%sp + 32], %i0
        ldd     [%sp + 40], %i2
        ldd     [%sp + 48], %i4
        ldd     [%sp + 56], %i6
        save
        save
        jmp     %l1
        rett    %l2
