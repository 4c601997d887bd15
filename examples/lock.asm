# Two harts take a lock in turn and add to one sum, which hart 0 writes out at the end.
.harts 2
.schedule rr 3
.steps 5000
.data
wants: .word 0, 0           # whether each hart wants the lock
turn:  .word 0              # who goes first where both want it
sum:   .word 0
done:  .word 0              # how many harts are through
.text
       la   s0, wants
       slli t0, a0, 2
       add  s1, s0, t0      # the own wish
       li   t1, 1
       sub  s2, t1, a0      # the other hart
       slli t2, s2, 2
       add  s3, s0, t2      # its wish
       mv   s6, a0
       li   s4, 10          # rounds
again: sw   t1, 0(s1)
       sw   s2, 8(s0)
spin:  lw   t3, 0(s3)
       beqz t3, enter
       lw   t4, 8(s0)
       beq  t4, s2, spin
enter: lw   t5, 12(s0)
       addi t5, t5, 1
       sw   t5, 12(s0)
       sw   zero, 0(s1)     # out of the lock
       addi s4, s4, -1
       bnez s4, again
       bnez s6, last        # hart 1 says that it is through
wait:  lw   t6, 16(s0)
       beqz t6, wait
       li   a7, 7           # write the sum
       la   a1, sum
       li   a2, 4
       ecall
       j    leave
last:  sw   t1, 16(s0)
leave: li   a7, 1
       li   a0, 0
       ecall
