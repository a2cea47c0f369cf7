# Sixteen bytes of data are copied by two harts, each of which takes the half that its number says.
# The picture shows the copy as four words.
.output copy,4,1
    lui x5,0x200
    slli x6,x10,3
    add x5,x5,x6
    addi x7,x5,16
    addi x8,x0,8
next: lbu x9,0(x7)
    sb x9,0(x5)
    addi x5,x5,1
    addi x7,x7,1
    addi x8,x8,-1
    bne x8,x0,next
    ecall

.data
copy: .space 16
    .word 1                   # the sixteen bytes that are copied
    .word -2
    .word 30000000
    .word -2147483648
