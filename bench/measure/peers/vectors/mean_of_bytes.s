# The mean of a pixel of a padded input of bytes and its eight neighbours, as words. No sum is below 0.
.output mean,64,48
    vsetivli x0,16,e32,m4,tu,mu
    addi x5,x0,9              # the divisor
    la x6,in
    la x7,mean
    la x8,end
row: addi x9,x7,256
run: vle8.v v1,(x6)           # 16 bytes, a register; their words take four
    vzext.vf4 v4,v1
    addi x6,x6,1
    vle8.v v1,(x6)
    vzext.vf4 v8,v1
    vadd.vv v4,v4,v8
    addi x6,x6,1
    vle8.v v1,(x6)
    vzext.vf4 v8,v1
    vadd.vv v4,v4,v8
    addi x6,x6,64             # the second row
    vle8.v v1,(x6)
    vzext.vf4 v8,v1
    vadd.vv v4,v4,v8
    addi x6,x6,1
    vle8.v v1,(x6)
    vzext.vf4 v8,v1
    vadd.vv v4,v4,v8
    addi x6,x6,1
    vle8.v v1,(x6)
    vzext.vf4 v8,v1
    vadd.vv v4,v4,v8
    addi x6,x6,64             # the third
    vle8.v v1,(x6)
    vzext.vf4 v8,v1
    vadd.vv v4,v4,v8
    addi x6,x6,1
    vle8.v v1,(x6)
    vzext.vf4 v8,v1
    vadd.vv v4,v4,v8
    addi x6,x6,1
    vle8.v v1,(x6)
    vzext.vf4 v8,v1
    vadd.vv v4,v4,v8
    addi x6,x6,-118           # the first, 16 pixels on
    vdivu.vx v4,v4,x5
    vse32.v v4,(x7)
    addi x7,x7,64
    bne x7,x9,run
    addi x6,x6,2
    bne x7,x8,row
    ecall

.data
in: .space 3300
mean: .space 12288
end:
