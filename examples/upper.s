# Copies the input to the output with small letters made capital, and ends with the number of bytes:
#   ./ccc asm examples/upper.s upper.image
#   echo hello | ./ccc run upper.image
        addi x9, x0, 0          # how many bytes
        addi x18, x0, -1        # what the environment gives at the end of the input
next:   addi x17, x0, 2         # environment call 2 takes a byte into x10
        ecall
        beq x10, x18, done
        addi x5, x10, -97       # 0 to 25 for a to z
        sltiu x5, x5, 26
        beq x5, x0, put
        addi x10, x10, -32
put:    addi x17, x0, 1         # environment call 1 puts the low byte of x10
        ecall
        addi x9, x9, 1
        jal x0, next
done:   addi x10, x9, 0         # the value
        addi x17, x0, 0         # environment call 0 ends the program
        ecall
