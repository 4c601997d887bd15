.harts 1
.schedule rr 1000
.steps 250000
.data
table: .space 4096
.text
        la   s0, table
        li   s1, 12345
        li   s2, 1664525
        li   s3, 0
loop:   mul  s1, s1, s2
        addi s1, s1, 1013
        srli t0, s1, 20
        andi t0, t0, 1020
        add  t1, s0, t0
        lw   t2, 0(t1)
        add  t2, t2, s1
        sw   t2, 0(t1)
        lbu  t3, 1(t1)
        xor  s3, s3, t3
        sh   s3, 2(t1)
        div  t4, s1, t2
        rem  t5, s1, t3
        bne  s3, t4, loop
        j    loop
