# Hart 0 fills a block, hands it to hart 1 and frees it too early: hart 1 reads it once more.
.harts 2
.schedule rr 3
.steps 200
.data
block: .word 0              # where the block lies, once it is filled
seen:  .word 0              # hart 1 has seen it
.entry 1, reader
.text
        la   s0, block
        li   a7, 2          # a block of 32 bytes
        li   a0, 32
        ecall
        mv   s1, a0
        li   t0, 7
        sw   t0, 16(s1)
        sw   s1, 0(s0)      # hand it over
wait:   lw   t1, 4(s0)
        beqz t1, wait
        li   a7, 3          # give it back
        mv   a0, s1
        ecall
        j    leave
reader: la   s0, block
look:   lw   s1, 0(s0)
        beqz s1, look
        lw   t0, 16(s1)     # the block is still there
        li   t1, 1
        sw   t1, 4(s0)      # seen
        li   t2, 6
pause:  addi t2, t2, -1
        bnez t2, pause
        lw   t0, 16(s1)     # and now it is not
leave:  li   a7, 1
        li   a0, 0
        ecall
