# mixed.c by gcc -O2, disassembled; the last words are its read-only bytes.
.entry 0x00001000
    lui x2, 0x4000
    jal x1, at_10fc
    addi x17, x0, 0
    ecall
    beq x10, x0, at_10ec
    lw x15, 0(x10)
    beq x15, x0, at_10e8
    addi x2, x2, -32
    sw x8, 24(x2)
    sw x1, 28(x2)
    addi x8, x15, 0
    addi x13, x10, 0
    jal x0, at_1048
at_1034:
    lw x14, 0(x8)
    lw x15, 0(x15)
    addi x13, x8, 0
    addi x8, x14, 0
    beq x15, x0, at_1050
at_1048:
    lw x15, 0(x15)
    bne x15, x0, at_1034
at_1050:
    sw x0, 0(x13)
    auipc x1, 0x0
    jalr x1, -68(x1)
    addi x15, x10, 0
    addi x10, x8, 0
    addi x8, x15, 0
    auipc x1, 0x0
    jalr x1, -88(x1)
    beq x8, x0, at_10f4
    beq x10, x0, at_10c0
    lh x12, 4(x8)
    lh x13, 4(x10)
    addi x15, x2, 8
at_1084:
    blt x13, x12, at_10a4
at_1088:
    sw x8, 0(x15)
    lw x14, 0(x8)
    addi x15, x8, 0
    beq x14, x0, at_10d0
    lh x12, 4(x14)
    addi x8, x14, 0
    bge x13, x12, at_1088
at_10a4:
    sw x10, 0(x15)
    lw x14, 0(x10)
    addi x15, x10, 0
    beq x14, x0, at_10c4
    lh x13, 4(x14)
    addi x10, x14, 0
    jal x0, at_1084
at_10c0:
    addi x10, x2, 8
at_10c4:
    addi x15, x10, 0
    addi x10, x8, 0
    addi x8, x15, 0
at_10d0:
    sw x10, 0(x8)
    lw x1, 28(x2)
    lw x8, 24(x2)
    lw x10, 8(x2)
    addi x2, x2, 32
    jalr x0, 0(x1)
at_10e8:
    jalr x0, 0(x1)
at_10ec:
    addi x10, x0, 0
    jalr x0, 0(x1)
at_10f4:
    addi x8, x2, 8
    jal x0, at_10d0
at_10fc:
    lui x15, 0x2000
    addi x2, x2, -112
    addi x15, x15, 544
    sw x15, 8(x2)
    lui x15, 0x2000
    addi x15, x15, 1536
    sw x15, 12(x2)
    lui x15, 0x1
    sw x9, 100(x2)
    sw x18, 96(x2)
    sw x20, 88(x2)
    sw x22, 80(x2)
    sw x23, 76(x2)
    sw x26, 64(x2)
    sw x27, 60(x2)
    lui x5, 0x2000
    lui x31, 0x8
    lui x27, 0x2000
    lui x26, 0x2000
    lui x22, 0x2000
    lui x18, 0x2000
    lui x23, 0x2001
    addi x15, x15, 1316
    lui x20, 0x10
    lui x9, 0xffffa
    sw x8, 104(x2)
    sw x19, 92(x2)
    sw x21, 84(x2)
    sw x24, 72(x2)
    sw x25, 68(x2)
    sw x1, 108(x2)
    addi x19, x0, 0
    addi x24, x0, 0
    addi x8, x0, 0
    addi x25, x5, 0
    addi x27, x27, 8
    addi x26, x26, 512
    addi x22, x22, 1024
    addi x18, x18, 1056
    addi x23, x23, -1540
    sw x15, 4(x2)
    addi x21, x31, -1
    addi x20, x20, -1
    addi x9, x9, 1
at_11ac:
    and x15, x19, x21
    slli x15, x15, 0x10
    srai x15, x15, 0x10
    addi x13, x27, 0
    addi x14, x0, 37
    addi x12, x0, 0
    addi x16, x0, 63
at_11c8:
    slli x15, x15, 0x10
    srli x15, x15, 0x10
    slli x10, x12, 0x10
    and x15, x15, x20
    xor x11, x14, x19
    or x15, x15, x10
    sw x15, -4(x13)
    addi x14, x14, 37
    and x15, x11, x21
    sw x13, -8(x13)
    slli x15, x15, 0x10
    slli x14, x14, 0x10
    addi x12, x12, 1
    srai x15, x15, 0x10
    addi x13, x13, 8
    srli x14, x14, 0x10
    bne x12, x16, at_11c8
    addi x10, x5, 0
    sw x0, 504(x25)
    sh x15, 508(x25)
    sh x12, 510(x25)
    auipc x1, 0x0
    jalr x1, -524(x1)
    addi x11, x10, 0
    lui x5, 0x2000
    lui x31, 0x8
    beq x10, x0, at_126c
at_1234:
    lh x13, 4(x11)
    addi x14, x0, 16
at_123c:
    xor x15, x8, x13
    andi x15, x15, 1
    srli x8, x8, 0x1
    addi x14, x14, -1
    xor x12, x8, x9
    beq x15, x0, at_125c
    slli x8, x12, 0x10
    srli x8, x8, 0x10
at_125c:
    srli x13, x13, 0x1
    bne x14, x0, at_123c
    lw x11, 0(x11)
    bne x11, x0, at_1234
at_126c:
    slli x7, x24, 0x10
    slli x17, x24, 0x10
    srli x7, x7, 0x10
    srai x17, x17, 0x10
    addi x29, x22, 0
    addi x28, x26, 0
    addi x10, x0, 16
    addi x6, x0, 0
    addi x30, x0, 16
at_1290:
    slli x16, x6, 0x10
    srli x16, x16, 0x10
    addi x12, x29, 0
    addi x15, x16, 0
    addi x13, x28, 0
    addi x14, x7, 0
at_12a8:
    xor x11, x17, x15
    addi x15, x15, 1
    sh x14, 0(x13)
    slli x15, x15, 0x10
    add x14, x14, x16
    sh x11, 0(x12)
    slli x14, x14, 0x10
    srli x15, x15, 0x10
    srli x14, x14, 0x10
    addi x13, x13, 2
    addi x12, x12, 2
    bne x10, x15, at_12a8
    addi x10, x10, 1
    slli x10, x10, 0x10
    addi x6, x6, 1
    addi x28, x28, 32
    addi x29, x29, 32
    srli x10, x10, 0x10
    bne x6, x30, at_1290
    lw x10, 8(x2)
    lw x28, 12(x2)
at_12fc:
    addi x16, x22, 0
    addi x17, x28, 0
    addi x6, x10, -32
at_1308:
    addi x15, x6, 0
    addi x13, x16, 0
    addi x12, x0, 0
at_1314:
    lh x14, 0(x15)
    lh x11, 0(x13)
    addi x15, x15, 2
    addi x13, x13, 32
    mul x14, x14, x11
    add x12, x12, x14
    bne x10, x15, at_1314
    sw x12, 0(x17)
    addi x16, x16, 2
    addi x17, x17, 4
    bne x18, x16, at_1308
    addi x10, x10, 32
    addi x28, x28, 64
    bne x18, x10, at_12fc
    addi x11, x25, 1596
    addi x10, x0, 3
at_1354:
    lw x14, 0(x11)
    addi x13, x0, 16
    divu x14, x14, x10
at_1360:
    xor x15, x8, x14
    andi x15, x15, 1
    srli x8, x8, 0x1
    addi x13, x13, -1
    xor x12, x8, x9
    beq x15, x0, at_1380
    slli x8, x12, 0x10
    srli x8, x8, 0x10
at_1380:
    srli x14, x14, 0x1
    bne x13, x0, at_1360
    addi x11, x11, 60
    addi x10, x10, 1
    bne x23, x11, at_1354
    lw x11, 4(x2)
    sw x0, 24(x2)
    sw x0, 28(x2)
    sw x0, 32(x2)
    sw x0, 36(x2)
    sw x0, 40(x2)
    sw x0, 44(x2)
    addi x15, x0, 0
    addi x14, x0, 53
    addi x17, x0, 44
    addi x10, x0, 3
    addi x12, x0, 9
    addi x16, x0, 4
    jal x0, at_13fc
at_13cc:
    beq x15, x0, at_14f8
    addi x15, x0, 1
    bgeu x12, x13, at_13f0
    addi x13, x0, 46
    addi x15, x0, 3
    beq x14, x13, at_13f0
at_13e4:
    addi x15, x14, -101
    sltu x15, x0, x15
    addi x15, x15, 4
at_13f0:
    lbu x14, 1(x11)
    addi x11, x11, 1
    beq x14, x0, at_1430
at_13fc:
    addi x13, x14, -48
    andi x13, x13, 255
    beq x14, x17, at_14cc
    beq x15, x10, at_14f0
    bge x10, x15, at_13cc
    bne x15, x16, at_1420
    bgeu x12, x13, at_13f0
    addi x13, x0, 45
    beq x14, x13, at_13f0
at_1420:
    lbu x14, 1(x11)
    addi x15, x0, 5
    addi x11, x11, 1
    bne x14, x0, at_13fc
at_1430:
    addi x11, x2, 24
at_1434:
    lw x13, 0(x11)
    addi x14, x0, 16
at_143c:
    xor x15, x8, x13
    andi x15, x15, 1
    srli x8, x8, 0x1
    addi x14, x14, -1
    xor x12, x8, x9
    beq x15, x0, at_145c
    slli x8, x12, 0x10
    srli x8, x8, 0x10
at_145c:
    srli x13, x13, 0x1
    bne x14, x0, at_143c
    addi x11, x11, 4
    addi x15, x2, 48
    bne x15, x11, at_1434
    addi x15, x31, -1615
    add x15, x19, x15
    slli x19, x15, 0x10
    addi x24, x24, 1
    addi x14, x0, 1200
    srli x19, x19, 0x10
    bne x24, x14, at_11ac
    lw x1, 108(x2)
    addi x10, x8, 0
    lw x8, 104(x2)
    lw x9, 100(x2)
    lw x18, 96(x2)
    lw x19, 92(x2)
    lw x20, 88(x2)
    lw x21, 84(x2)
    lw x22, 80(x2)
    lw x23, 76(x2)
    lw x24, 72(x2)
    lw x25, 68(x2)
    lw x26, 64(x2)
    lw x27, 60(x2)
    addi x2, x2, 112
    jalr x0, 0(x1)
at_14cc:
    slli x14, x15, 0x2
    addi x15, x14, 32
    addi x14, x2, 16
    add x14, x15, x14
    lw x13, -24(x14)
    addi x15, x0, 0
    addi x13, x13, 1
    sw x13, -24(x14)
    jal x0, at_13f0
at_14f0:
    bgeu x12, x13, at_13f0
    jal x0, at_13e4
at_14f8:
    addi x15, x0, 1
    bgeu x12, x13, at_13f0
    addi x15, x0, 45
    beq x14, x15, at_151c
    addi x13, x0, 46
    addi x15, x0, 3
    beq x14, x13, at_13f0
    addi x15, x0, 43
    bne x14, x15, at_1420
at_151c:
    addi x15, x0, 2
    jal x0, at_13f0
    .word 0x32313035
    .word 0x33332d2c
    .word 0x352b2c34
    .word 0x65372e36
    .word 0x2e302c33
    .word 0x782c3532
    .word 0x312c3231
    .word 0x2c342d65
    .word 0x2c2c3737
    .word 0x2e392c2d
    .word 0x2c392e39
    .word 0x00000000
