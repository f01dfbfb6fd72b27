# 64 KiB are copied word by word, then summed byte by byte, then summed at strides of 68 bytes, 700 times.
    lui x5, 0x02000
    lui x6, 0x02010
    lui x7, 0x02020
    addi x28, x0, 700
turn:
    addi x8, x5, 0
    addi x9, x6, 0
copy:
    lw x10, 0(x8)
    lw x11, 4(x8)
    sw x10, 0(x9)
    sw x11, 4(x9)
    addi x8, x8, 8
    addi x9, x9, 8
    bne x8, x6, copy
    addi x8, x6, 0
bytes:
    lbu x10, 0(x8)
    add x12, x12, x10
    sb x12, 1(x8)
    addi x8, x8, 4
    bltu x8, x7, bytes
    addi x13, x0, 16
strides:
    slli x8, x13, 2
    add x8, x8, x6
    addi x14, x0, 900
stride:
    lhu x10, 0(x8)
    add x12, x12, x10
    sh x12, 2(x8)
    addi x8, x8, 68
    addi x14, x14, -1
    bne x14, x0, stride
    addi x13, x13, -1
    bne x13, x0, strides
    addi x28, x28, -1
    bne x28, x0, turn
    addi x10, x0, 0
    addi x17, x0, 0
    ecall
