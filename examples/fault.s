# Loads from an address where no memory is, so the machine stops with the address of the instruction:
#   ./ccc asm examples/fault.s fault.image
#   ./ccc run fault.image
        lui x5, 0x01fff         # 0x01fff000 lies below the data region
        lw x10, 0(x5)
