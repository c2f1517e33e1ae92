    la a0, msg
    li a1, 3
    li a7, 8        # write
    ecall
    li a0, 0
    li a7, 1        # exit
    ecall
.data
msg: .byte 104 105 10
