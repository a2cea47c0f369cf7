# The tenth Fibonacci number, by a function that calls itself, with its stack in data. The pixel is
# the first word of data; the stack grows down from the end of its 256 bytes.
.output result,1,1
    lui x5,0x200
    addi x2,x5,256
    addi x10,x0,10
    jal x1,fibonacci
    sw x10,0(x5)
    ecall
fibonacci: addi x6,x0,2
    bltu x10,x6,done
    addi x2,x2,-12
    sw x1,0(x2)
    sw x10,4(x2)
    addi x10,x10,-1
    jal x1,fibonacci
    sw x10,8(x2)
    lw x10,4(x2)
    addi x10,x10,-2
    jal x1,fibonacci
    lw x6,8(x2)
    add x10,x10,x6
    lw x1,0(x2)
    addi x2,x2,12
done: jalr x0,0(x1)

.data
result: .space 256
