# A tight loop of eight instructions, 20 million turns.
    lui x5, 0x02000
    addi x6, x0, 0
    lui x7, 0x01313
    addi x7, x7, -768
loop:
    andi x8, x6, 1020
    add x9, x5, x8
    lw x11, 0(x9)
    add x11, x11, x6
    xori x11, x11, 85
    sw x11, 0(x9)
    addi x6, x6, 1
    bne x6, x7, loop
    addi x10, x0, 0
    addi x17, x0, 0
    ecall
