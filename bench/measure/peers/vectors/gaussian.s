# A Gaussian of 5 by 5 over a padded input: gx across, 52 rows of 64, then gy down. The weights are 1, 4, 6, 4, 1 in 16.
.output gy,64,48
    vsetivli x0,16,e32,m4,tu,mu
    addi x5,x0,6              # the weight in the middle
    la x6,in
    la x7,gx
    la x8,gy                  # where gx ends
row: addi x9,x7,256
across: vle32.v v4,(x6)
    addi x6,x6,4
    vle32.v v8,(x6)
    addi x6,x6,4
    vle32.v v12,(x6)
    addi x6,x6,4
    vle32.v v16,(x6)
    addi x6,x6,4
    vle32.v v20,(x6)
    addi x6,x6,48             # 16 pixels on
    vadd.vv v8,v8,v16
    vsll.vi v8,v8,2
    vmul.vx v12,v12,x5
    vadd.vv v4,v4,v20
    vadd.vv v8,v8,v12
    vadd.vv v4,v4,v8
    vsra.vi v4,v4,4
    vse32.v v4,(x7)
    addi x7,x7,64
    bne x7,x9,across
    addi x6,x6,16             # past the four columns of padding
    bne x7,x8,row
    la x6,gx                  # the five rows that a pixel reads
    addi x7,x6,256
    addi x9,x7,256
    addi x10,x9,256
    addi x11,x10,256
    la x12,end
down: vle32.v v4,(x6)
    vle32.v v8,(x7)
    vle32.v v12,(x9)
    vle32.v v16,(x10)
    vle32.v v20,(x11)
    vadd.vv v8,v8,v16
    vsll.vi v8,v8,2
    vmul.vx v12,v12,x5
    vadd.vv v4,v4,v20
    vadd.vv v8,v8,v12
    vadd.vv v4,v4,v8
    vsra.vi v4,v4,4
    vse32.v v4,(x8)
    addi x6,x6,64
    addi x7,x7,64
    addi x9,x9,64
    addi x10,x10,64
    addi x11,x11,64
    addi x8,x8,64
    bne x8,x12,down
    ecall

.data
in: .space 14144
gx: .space 13312
gy: .space 12288
end:
