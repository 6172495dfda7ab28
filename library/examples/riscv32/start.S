# The start of a RISC-V of 32 bits without an operating system: the stack and bss. A trap goes to `halt`, which ends the run with a fault.
        .option arch, +zicsr
        .section .start, "ax"
        .global start
start:
        la      t0, halt
        csrw    mtvec, t0
        la      sp, stack_top
        la      t0, bss_begins
        la      t1, bss_ends
1:      bgeu    t0, t1, 2f
        sw      zero, 0(t0)
        addi    t0, t0, 4
        j       1b
2:      call    main
        call    leave
        .align  2
halt:   li      a0, 3
        call    leave
