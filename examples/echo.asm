# Reads up to 16 bytes into a block of the heap, writes them out again, and gives the block back.
.harts 1
.schedule rr 1
.steps 100
.input 68656c6c6f0a
.text
      li   a7, 2            # a block of 16 bytes
      li   a0, 16
      ecall
      mv   s0, a0
      li   a7, 6            # read
      mv   a1, s0
      li   a2, 16
      ecall
      mv   a2, a0           # as many as came
      li   a7, 7            # write
      mv   a1, s0
      ecall
      li   a7, 3            # give it back
      mv   a0, s0
      ecall
      li   a7, 1            # exit with 0
      li   a0, 0
      ecall
