# Ends with the value 7:
#   ./ccc asm examples/seven.s seven.image
#   ./ccc run seven.image
#   ./ccc list seven.image
        addi x10, x0, 7         # the value
        addi x17, x0, 0         # environment call 0 ends the program
        ecall
