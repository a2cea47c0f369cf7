# The sum of the numbers from 1 to 100, as a picture of one pixel.
.output sum,1,1
    lui x5,0x200
    addi x6,x0,100
    addi x7,x0,0
next: add x7,x7,x6
    addi x6,x6,-1
    bne x6,x0,next
    sw x7,0(x5)
    ecall

.data
sum: .word 0
