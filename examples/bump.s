# two workers add 1 to a counter without a lock
    la a0, work
    li a1, 0
    li a7, 3
    ecall
    la a0, work
    ecall
    li a0, 1
    li a7, 4
    ecall
    li a0, 2
    ecall
    la s0, cnt
    lw s1, 0(s0)
    addi s1, s1, 48
    sb s1, 4(s0)
    addi a0, s0, 4
    li a1, 1
    li a7, 8
    ecall
    li a0, 0
    li a7, 1
    ecall
work:
    la s0, cnt
    lw s1, 0(s0)
    addi s1, s1, 1
    sw s1, 0(s0)
    li a7, 2
    ecall
.data
cnt: .word 0
buf: .word 0
